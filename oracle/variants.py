"""Makes the two variants of the Rust sources as modules of the oracle.

usage: variants.py SOURCES_DIR MODULES_DIR

`untouched` keeps every line of arithmetic; `tabled` takes the project's tables in place
of each sine, cosine, arc function and power. Every edit names a short anchor and stops
the build if that anchor does not occur exactly as often as expected.
"""

import pathlib
import re
import sys

NAMES = ["ps_data", "ps_decoder", "ps_decorr", "ps_hybrid", "ps_map", "ps_stereo", "sbr_qmf"]

# file, anchor, replacement, expected count
SHARED = [
    ("ps_data", "oxideav_core::bits", "crate::bits", 1),
    ("ps_decoder", "oxideav_core::bits", "crate::bits", 1),
    # The cue line stands in for the bit stream.
    ("ps_decoder", "PsData::parse(", "super::data_of_line(", 1),
    # A place to look between the stages; it changes no number.
    ("ps_decoder", "let l_qmf", "super::look(&s, &d, &l, &r);\n        let l_qmf", 1),
]

# The parts that `oracle tables` asks by name.
UNTOUCHED = [
    ("ps_stereo", "fn mix_ra(", "pub fn mix_ra(", 1),
    ("ps_stereo", "fn mix_rb(", "pub fn mix_rb(", 1),
    ("ps_decorr", "    phi_fract: Vec", "    pub phi_fract: Vec", 1),
    ("ps_decorr", "    q_fract: Vec", "    pub q_fract: Vec", 1),
]

TABLED = [
    ("ps_hybrid", "arg.sin_cos()", "crate::tables::modulation(type_a, q_cnt, q, m)", 1),
    ("ps_decorr", "-core::f64::consts::PI * Q_PHI * f", "0", 1),
    ("ps_decorr", "-core::f64::consts::PI * Q_FRACT[m] * f", "1 + m", 1),
    ("ps_decorr", "arg.sin_cos()", "crate::tables::rotation(c.nr_par_bands, k, arg)", 2),
    ("ps_stereo", "10f64.powf(iid_db / 20.0)", "iid_db", 1),
    ("ps_stereo", "if rb { mix_rb(c, rho) } else { mix_ra(c, rho) }",
     "crate::tables::mixing(rb, fine, iid[b], icc[b])", 1),
    # The phase history then holds indices instead of angles.
    ("ps_stereo", " * core::f64::consts::FRAC_PI_4", "", 1),
]

DIRECTIONS = """let turn = |h: &[Vec<f64>; 2], cur: f64| {
                    let (re, im) = crate::tables::direction(h[0][b], h[1][b], cur);
                    Complex::new(re, im)
                };
                let r1 = turn(&self.opd_hist, opd_cur[b]);
                let r2 = r1 * turn(&self.ipd_hist, ipd_cur[b]).conj();"""

# file, first anchor, last anchor (None: the end of the file), replacement of all between
TABLED_SPANS = [
    ("ps_stereo", "let sm = |", "Complex::new(c2, s2);", DIRECTIONS),
    ("ps_stereo", "/// §8.6.4.6.2.1", None, ""),
]

TESTS = re.compile(r"^#\[cfg\(test\)\]\s*mod ", re.MULTILINE)
TRIGONOMETRY = re.compile(r"sin_cos|\.sin\(|\.cos\(|\.acos\(|\.atan2?\(|\.powf\(")


def once(variant, name, text, anchor, count):
    """Stops the build unless the anchor occurs exactly `count` times."""
    found = text.count(anchor)
    if found != count:
        sys.exit(f"variants.py: {variant}: {name}.rs: anchor `{anchor}` "
                 f"found {found} times, {count} expected")


def edit(variant, sources, edits):
    for name, anchor, replacement, count in edits:
        once(variant, name, sources[name], anchor, count)
        sources[name] = sources[name].replace(anchor, replacement)


def cut(variant, sources, spans):
    for name, first, last, replacement in spans:
        text = sources[name]
        once(variant, name, text, first, 1)
        start, end = text.index(first), len(text)
        if last is not None:
            once(variant, name, text, last, 1)
            end = text.index(last) + len(last)
        sources[name] = text[:start] + replacement + text[end:]


def read(folder):
    """The sources without their own tests, `crate::` turned into the variant's root."""
    sources = {}
    for name in NAMES:
        text = (folder / f"{name}.rs").read_text()
        text = TESTS.split(text)[0]
        sources[name] = text.replace("crate::", "super::")
    return sources


def without_trigonometry(sources):
    """The QMF banks of sbr_qmf are not part of the decoder and stay as they are."""
    for name in NAMES:
        found = TRIGONOMETRY.search(sources[name])
        if found and name != "sbr_qmf":
            sys.exit(f"variants.py: tabled: {name}.rs still has `{found.group()}`")


def write(folder, sources):
    folder.mkdir(parents=True, exist_ok=True)
    for name, text in sources.items():
        (folder / f"{name}.rs").write_text(text)
    (folder / "mod.rs").write_text((folder.parent / "variant.rs").read_text())


def main():
    source_folder, modules = pathlib.Path(sys.argv[1]), pathlib.Path(sys.argv[2])
    untouched = read(source_folder)
    edit("untouched", untouched, SHARED + UNTOUCHED)
    write(modules / "untouched", untouched)
    tabled = read(source_folder)
    edit("tabled", tabled, SHARED + TABLED)
    cut("tabled", tabled, TABLED_SPANS)
    without_trigonometry(tabled)
    write(modules / "tabled", tabled)


main()
