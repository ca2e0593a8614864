//! `places`: where a line is refused, by document 02 [2]: a list by hand, then bad lines by chance, changed at and behind their place.

use crate::line::READER;
use crate::lines::{self, Style};
use crate::random::Random;

/// Lines with the answer and the place that refuse them.
const LINES: [(&str, u8, usize); 25] = [
    // Those that document 01 shows.
    (
        "030000010000000000000000000000000000000000000000000000",
        3,
        54,
    ),
    ("030000010005 04ff", 2, 12),
    ("0300000", 3, 7),
    // Characters: the first bad one, before an odd length and bad bytes.
    ("g0000000", 2, 0),
    ("ff0000GG", 2, 6),
    ("00000000\r", 2, 8),
    // Lengths: characters of the line, before the bytes.
    ("0", 3, 1),
    ("ffffff", 3, 6),
    ("fffffffff", 3, 9),
    ("0000000000", 3, 10),
    // Bytes 0 to 3: the first bad one, before the length that they imply.
    ("1006060500", 4, 0),
    ("0f060605", 4, 1),
    ("0f050605", 4, 2),
    ("0f0505ff", 4, 3),
    // Borders, after the length and before the time bytes.
    ("0400000220", 3, 10),
    ("0c0000022020ffffffff", 4, 4),
    ("0c0000021f20ffffffff", 4, 5),
    ("0c0000021f1fffffffff", 4, 6),
    // Time bytes: phase without IID has nothing else, two of IPD, then two of OPD.
    ("0800000202020202", 4, 4),
    ("0800000201020202", 4, 5),
    ("0800000200010202", 4, 6),
    ("0800000200010002", 4, 7),
    // Every envelope of a kind before the next kind, after the length; deltas take any value.
    ("0300000202ff", 3, 12),
    (
        "0300000201ffffffffffffffffffff02ffffffffffffffffffff02ffffffffffffffffffff02ffffffffffffffffffff",
        4,
        15,
    ),
    (
        "0300000201ffffffffffffffffffff00ffffffffffffffffffff02ffffffffffffffffffff02ffffffffffffffffffff",
        4,
        26,
    ),
];

/// The answer and the place of a line, both 0 where it is read.
fn refusal(line: &[u8]) -> (u8, usize) {
    match READER.bytes_of(line) {
        Ok(_) => (0, 0),
        Err(refusal) => (refusal.answer, refusal.place),
    }
}

/// What stands behind the place does not matter; with zeros at it the line is refused further on, or with another answer, or not at all.
fn first(line: &[u8]) -> bool {
    let (answer, place) = refusal(line);
    let bad = match answer {
        2 => place..place + 1,
        4 => 2 * place..2 * place + 2,
        _ => return place == if answer == 3 { line.len() } else { 0 },
    };
    let (mut other, mut mended) = (line.to_vec(), line.to_vec());
    other[bad.end..].fill(b'f');
    mended[bad].fill(b'0');
    let (answer_then, place_then) = refusal(&mended);
    refusal(&other) == (answer, place) && (answer_then != answer || place_then > place)
}

pub fn check(count: usize, seed: u64) -> bool {
    let mut random = Random::new(seed);
    let mut style = Style::new(&mut random);
    let long = "g".repeat(READER.digits + 1);
    let long = (long.as_str(), 3, READER.digits + 1);
    let listed = LINES.into_iter().chain([long]);
    let wrong = listed.filter(|&(line, answer, place)| refusal(line.as_bytes()) != (answer, place));
    let wrong = wrong.map(|(line, ..)| line.as_bytes().to_vec());
    let chance = (0..count).map(|_| lines::bad(&mut random, &mut style));
    let wrong: Vec<_> = wrong.chain(chance.filter(|line| !first(line))).collect();
    for line in &wrong {
        let (answer, place) = refusal(line);
        let line = String::from_utf8_lossy(line);
        println!("answer {answer}, place {place}: {line}");
    }
    println!("{} lines, {} wrong", LINES.len() + 1 + count, wrong.len());
    wrong.is_empty()
}
