//! Cue lines by chance: good ones whose modes persist for a while, and broken ones.

use crate::line::{READER, Shape};
use crate::random::Random;

/// The configuration a run of lines is in.
pub struct Style {
    present: u8,
    iid_mode: u8,
    icc_mode: u8,
}

impl Style {
    pub fn new(random: &mut Random) -> Self {
        Style {
            present: random.pick(&[3, 3, 3, 3, 11, 11, 11, 1, 2, 0, 8, 10, 9]),
            iid_mode: random.below(6) as u8,
            icc_mode: random.below(6) as u8,
        }
    }

    /// Now and then one of the three, or all of them, changes.
    fn wander(&mut self, random: &mut Random) {
        match random.below(14) {
            0 => *self = Style::new(random),
            1 => self.present = Style::new(random).present,
            2 => self.iid_mode = random.below(6) as u8,
            3 => self.icc_mode = random.below(6) as u8,
            4 => self.iid_mode = (self.iid_mode + 3) % 6,
            _ => {}
        }
    }

    /// The bytes of a line that is accepted.
    pub fn bytes(&mut self, random: &mut Random) -> Vec<u8> {
        self.wander(random);
        let variable = if random.one_in(3) { 4 } else { 0 };
        let most = READER.envelopes;
        let envelopes = random.pick(&[0, 1, 1, 2, 2, 3, most, most]);
        let present = self.present + variable;
        bytes(random, [present, self.iid_mode, self.icc_mode, envelopes])
    }
}

/// The bytes of a line that is accepted, with that head.
pub fn bytes(random: &mut Random, head: [u8; 4]) -> Vec<u8> {
    let shape = Shape::of(head);
    let mut bytes = head.to_vec();
    bytes.extend(borders(random, shape.borders));
    for count in shape.kinds().into_iter().flatten() {
        for _ in 0..shape.envelopes {
            bytes.push(random.below(2) as u8);
            bytes.extend(deltas(random, count));
        }
    }
    bytes
}

/// Rising borders two times of three, otherwise any, which may fall back or repeat.
fn borders(random: &mut Random, count: usize) -> Vec<u8> {
    let mut borders: Vec<u8> = (0..count).map(|_| random.below(32) as u8).collect();
    if !random.one_in(3) {
        borders.sort_unstable();
    }
    borders
}

fn deltas(random: &mut Random, count: usize) -> Vec<u8> {
    let style = random.below(6);
    let mut delta = |_| match style {
        0 => 0,
        1 | 2 => random.below(5) as i32 - 2,
        3 => random.below(31) as i32 - 15,
        4 => random.pick(&[-128, 127, 0, 1, -1]),
        _ => random.below(256) as i32 - 128,
    };
    (0..count).map(|place| delta(place) as i8 as u8).collect()
}

/// Two lower-case digits a byte.
pub fn hexadecimal(bytes: &[u8]) -> Vec<u8> {
    let digits = b"0123456789abcdef";
    let pair = |byte: &u8| {
        [
            digits[usize::from(byte / 16)],
            digits[usize::from(byte % 16)],
        ]
    };
    bytes.iter().flat_map(pair).collect()
}

pub fn good(random: &mut Random, style: &mut Style) -> Vec<u8> {
    hexadecimal(&style.bytes(random))
}

/// A line with one fault, or with two so that their order shows.
pub fn bad(random: &mut Random, style: &mut Style) -> Vec<u8> {
    let mut bytes = style.bytes(random);
    if random.one_in(2) {
        spoil_bytes(random, &mut bytes);
    }
    if random.one_in(4) {
        spoil_bytes(random, &mut bytes);
    }
    let mut line = hexadecimal(&bytes);
    if random.one_in(2) {
        spoil_characters(random, &mut line);
    }
    line
}

fn spoil_bytes(random: &mut Random, bytes: &mut Vec<u8>) {
    let most = READER.envelopes;
    match random.below(8) {
        0 => bytes[0] |= 16 << random.below(4),
        1 => bytes[1] = random.pick(&[6, 7, 8, 255]),
        2 => bytes[2] = random.pick(&[6, 7, 8, 255]),
        3 => bytes[3] = random.pick(&[most + 1, most + 2, 2 * most, 255]),
        4 => bytes.push(random.below(256) as u8),
        5 => bytes.truncate(4 + random.below(bytes.len() - 3)),
        // Borders and time bytes stand here and there; deltas take any value.
        6 => {
            let place = 4.min(bytes.len() - 1);
            bytes[place] = random.pick(&[2, 31, 32, 255]);
        }
        _ => {
            let place = random.below(bytes.len());
            bytes[place] = random.below(256) as u8;
        }
    }
}

fn spoil_characters(random: &mut Random, line: &mut Vec<u8>) {
    let place = random.below(line.len());
    let most = READER.digits;
    match random.below(7) {
        0 => line[place] = random.pick(b" gGAF/:`x-+\t\r\0\x7f\x80\xff"),
        1 => line.insert(place, random.pick(b" 0f")),
        2 => drop(line.pop()),
        3 => line.truncate(1 + random.below(7)),
        4 => {
            let length = random.pick(&[most - 1, most, most + 1, most + 2, 2000]);
            line.resize(length, b'0');
        }
        5 => {
            line.resize(random.pick(&[most - 2, most, most + 1, most + 36]), b'0');
            line[place] = b' ';
        }
        _ => line.make_ascii_uppercase(),
    }
}

/// A line of any sort, for feeding listing programs.
pub fn any(random: &mut Random, style: &mut Style) -> Vec<u8> {
    match random.below(8) {
        0 => Vec::new(),
        1 => bad(random, style),
        _ => good(random, style),
    }
}
