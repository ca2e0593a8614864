//! `indices`, `maps` and `lines`: the index half of the Rust on standard input and output.

use crate::line::{Mode, READER};
use crate::lines::{self, Style};
use crate::random::Random;
use crate::untouched::data;
use crate::untouched::ps_data::{PsIndexState, PsIndices};
use crate::untouched::ps_map::map_indices;
use std::io::{self, BufRead, Write};

/// Lines from standard input as bytes, without their newlines.
fn input_lines() -> impl Iterator<Item = Vec<u8>> {
    io::stdin()
        .lock()
        .split(b'\n')
        .map(|line| line.expect("standard input is readable"))
}

/// What `cuelist` prints, resolved by the Rust.
pub fn indices() -> bool {
    let mut output = io::BufWriter::new(io::stdout().lock());
    let mut state = PsIndexState::default();
    let mut configured = false;
    for (number, characters) in input_lines().enumerate() {
        let text = match READER.bytes_of(&characters) {
            Err(refusal) => refusal.answer.to_string(),
            Ok(None) if configured => "0".to_string(),
            Ok(None) => "1".to_string(),
            Ok(Some(bytes)) => {
                configured = true;
                format!("0{}", rows_text(&resolved(READER.mode, &bytes, &mut state)))
            }
        };
        writeln!(output, "{} {text}", number + 1).expect("standard output is writable");
    }
    true
}

/// The rows of an accepted line, by the Rust, in a mode.
fn resolved(mode: Mode, bytes: &[u8], state: &mut PsIndexState) -> PsIndices {
    let resolved = match mode {
        Mode::Rust => data(bytes).resolve(state),
    };
    resolved.expect("any deltas resolve")
}

fn rows_text(resolved: &PsIndices) -> String {
    let kinds = [
        ("iid", &resolved.iid),
        ("icc", &resolved.icc),
        ("ipd", &resolved.ipd),
        ("opd", &resolved.opd),
    ];
    let mut text = String::new();
    for (word, rows) in kinds {
        for row in rows {
            text += &format!(" {word}");
            row.iter().for_each(|index| text += &format!(" {index}"));
        }
    }
    text
}

/// "TARGET v0 v1 .." to the mapped row; the refusals are document 01's.
pub fn maps() -> bool {
    for characters in input_lines() {
        let text = String::from_utf8_lossy(&characters).into_owned();
        let numbers: Option<Vec<i32>> = text
            .split_whitespace()
            .map(|word| word.parse().ok())
            .collect();
        let Some([target, row @ ..]) = numbers.as_deref() else {
            eprintln!("maps: not a row of numbers: {text}");
            return false;
        };
        println!("{}", mapped(*target, row));
    }
    true
}

fn mapped(target: i32, row: &[i32]) -> String {
    if ![10, 20, 34].contains(&row.len()) || ![20, 34].contains(&target) {
        return "refused 5".to_string();
    }
    if row.iter().any(|index| !(-15..=15).contains(index)) {
        return "refused 4".to_string();
    }
    let words: Vec<String> = map_indices(row, target as usize)
        .iter()
        .map(|index| index.to_string())
        .collect();
    words.join(" ")
}

/// Generated cue lines, good, bad and empty.
pub fn print_lines(count: usize, seed: u64) -> bool {
    let mut output = io::BufWriter::new(io::stdout().lock());
    let mut random = Random::new(seed);
    let mut style = Style::new(&mut random);
    for _ in 0..count {
        let mut line = lines::any(&mut random, &mut style);
        line.push(b'\n');
        output
            .write_all(&line)
            .expect("standard output is writable");
    }
    true
}
