"""Reads the whole-number tables out of the project's crates and writes them as Rust.

usage: tables.py CRATES_DIR OUTPUT.rs
"""

import pathlib
import re
import sys

# crate, static, how many numbers it must have
WANTED = [
    ("mixing_table", "MIXING", 2944),
    ("phase_table", "PHASE", 1024),
    ("rotation_table", "ROTATION_20", 240),
    ("rotation_table", "ROTATION_34", 400),
    ("root_table", "ROOT_8", 16),
    ("root_table", "ROOT_16", 32),
    ("root_table", "ROOT_24", 48),
]


def numbers(folder, crate, name):
    """The numbers of one table, in the order of the crate's texts."""
    source = folder / crate / "src"
    text = "\n".join(path.read_text() for path in sorted(source.glob("*.rt")))
    text = re.sub(r"//[^\n]*", "", text)
    found = re.findall(r"static %s: \[i64; \d+\] = \[([^\]]*)\]" % name, text)
    if len(found) != 1:
        sys.exit(f"tables.py: table {name}: {len(found)} statics of that name in {source}, "
                 "1 wanted")
    parts = [part.strip() for part in found[0].split(",")]
    return [int(part) for part in parts if part]


def main():
    folder, output = pathlib.Path(sys.argv[1]), pathlib.Path(sys.argv[2])
    lines = ["//! Made by oracle/tables.py from the project's table crates.\n"]
    for crate, name, wanted in WANTED:
        values = numbers(folder, crate, name)
        if len(values) != wanted:
            sys.exit(f"tables.py: table {name}: {len(values)} numbers found, {wanted} wanted")
        body = "".join(f"    {value},\n" for value in values)
        lines.append(f"pub static {name}: [i64; {wanted}] = [\n{body}];\n")
    output.write_text("\n".join(lines))


main()
