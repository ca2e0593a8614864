//! `runs --fixed`: the list in tests/replay. Every limit of document 01, the order of its refusals, and what one frame leaves to the next.

use crate::decoder::{Frame, LARGEST_SAMPLE, Run, slots_of};
use crate::line::READER;
use crate::lines::{bytes, hexadecimal};
use crate::random::Random;
use crate::samples::{self, Kind};

/// Heads of lines that are accepted: 20 bands with phase, 34 bands with phase.
const NARROW: [u8; 4] = [11, 1, 3, 2];
const WIDE: [u8; 4] = [11, 2, 4, 2];
const EDGES: [u64; 5] = [0, 32, 64, 65, u64::MAX];

/// A run as it grows. A call is accepted unless it is changed afterwards.
struct Maker {
    random: Random,
    run: Run,
}

impl Maker {
    fn new(seed: u64, asked: u64) -> Self {
        Maker {
            random: Random::new(seed),
            run: Run {
                asked,
                frames: Vec::new(),
            },
        }
    }

    fn sound(&mut self, line: Vec<u8>, kind: Kind, scale: i32) -> &mut Frame {
        let slots = slots_of(self.run.asked);
        let (input, noise) = samples::fill(&mut self.random, kind, scale, slots + 6);
        let (left, right) = (slots * 128, slots * 128);
        let edge = 64;
        self.run.frames.push(Frame {
            line,
            input,
            noise,
            left,
            right,
            edge,
        });
        self.run.frames.last_mut().expect("a frame")
    }

    fn call(&mut self, line: Vec<u8>) -> &mut Frame {
        self.sound(line, Kind::Noise, 4)
    }

    fn line(&mut self, head: [u8; 4]) -> Vec<u8> {
        hexadecimal(&bytes(&mut self.random, head))
    }

    /// An accepted call whose line has that head.
    fn cued(&mut self, head: [u8; 4]) -> &mut Frame {
        let line = self.line(head);
        self.call(line)
    }

    /// Lines that are refused, and a frame that would show if one had left something.
    fn refused(&mut self, lines: &[&str]) {
        for line in lines {
            self.call(line.as_bytes().to_vec());
        }
        self.cued(NARROW);
    }

    /// A line of that head with the byte at a place changed.
    fn spoilt(&mut self, head: [u8; 4], place: usize, byte: u8) -> Vec<u8> {
        let mut bytes = bytes(&mut self.random, head);
        bytes[place] = byte;
        hexadecimal(&bytes)
    }

    fn done(self) -> Run {
        self.run
    }
}

/// Every pair of modes, with and without phase and variable borders: both procedures, both quantisers, switches of layout.
fn modes() -> Run {
    let mut make = Maker::new(1, 6);
    for mode in 0..36 {
        let flags = [3, 11, 15, 7, 11][usize::from(mode % 5)];
        make.cued([flags, mode / 6, mode % 6, 1 + mode % 4]).edge = u64::from(mode) * 2;
    }
    for flags in [0, 1, 2, 4, 8, 9, 10, 12] {
        make.cued([flags, 4, 0, 1 + flags % 3]);
    }
    make.done()
}

/// Before any configuration every call but an accepted one leaves the decoder fresh.
fn quiet() -> Run {
    let mut make = Maker::new(2, 6);
    make.call(Vec::new());
    make.call(Vec::new()).left += 1;
    make.call(Vec::new()).input.clear();
    make.call(Vec::new()).input[0] = f64::NAN;
    for line in ["0", "g", "10000000", "0000000000"] {
        make.call(line.into());
    }
    make.cued(WIDE).right -= 1;
    make.cued(WIDE).input[5] = f64::INFINITY;
    make.call(Vec::new());
    make.cued(WIDE);
    make.call(Vec::new());
    make.done()
}

fn digits(count: usize, last: &str) -> String {
    "0".repeat(count - last.len()) + last
}

/// The limits of a line, and each pair of neighbours in the order of refusals with both faults at once.
fn lines() -> Run {
    let mut make = Maker::new(3, 6);
    let (most, over, odd) = (READER.digits, READER.digits + 1, READER.digits - 1);
    let envelopes = |count: u8| format!("{count:08x}");
    make.cued(NARROW);
    make.refused(&[&digits(over, ""), &digits(most, ""), &digits(odd, "")]);
    make.refused(&[&digits(over, "g"), &digits(most, "g"), &digits(most, " ")]);
    make.refused(&["0", "00", "000", "0000", "00000", "000000", "0000000"]);
    make.refused(&["000000000", "0000000000", "00g", "0000000G", "0000000A"]);
    make.refused(&[
        "0000000/",
        "0000000:",
        "0000000`",
        "00000 00",
        "\u{7f}0000000",
    ]);
    // A field and the length before it in the order, or behind it.
    make.refused(&["1000000", "100000000", "1000000000", "0006000000"]);
    let many = envelopes(READER.envelopes + 1);
    make.refused(&["10000000", "00060000", "00000600", &many]);
    make.refused(&["80000000", "00ff0000", "0000ff00", "000000ff"]);
    let many = envelopes(READER.envelopes);
    for line in ["00000000", "00050000", "00000500", "0f050500", &many] {
        make.call(line.into());
    }
    // The longest line, and one byte more or less, also with a border out of range.
    let longest = make.line([15, 5, 5, READER.envelopes]);
    make.call(longest.clone());
    make.call(longest[..most - 2].to_vec());
    make.call([&longest[..], b"00"].concat());
    make.call([&longest[..8], b"20", &longest[10..most - 2]].concat());
    borders_and_times(&mut make);
    make.done()
}

/// Borders and time bytes at their last good value and beyond it, alone and with a fault of the buffers.
fn borders_and_times(make: &mut Maker) {
    let head = [15, 0, 0, 2];
    // Two borders, then two rows each of 1 + 10, 1 + 10, 1 + 5 and 1 + 5 bytes.
    for place in [4, 5] {
        let line = make.spoilt(head, place, 32);
        make.call(line.clone());
        make.call(line).left -= 1;
        let line = make.spoilt(head, place, 31);
        make.call(line);
    }
    for place in [6, 17, 28, 39, 50, 56, 62, 68] {
        let line = make.spoilt(head, place, 2);
        make.call(line.clone());
        make.call(line).input.clear();
    }
    let line = make.spoilt(head, 68, 1);
    make.call(line);
    make.call(Vec::new());
}

/// Buffers one number or one row short and long, also with a sample that is refused.
fn buffers() -> Run {
    let mut make = Maker::new(4, 6);
    make.cued(WIDE);
    for numbers in [1, 2, 127, 128] {
        let shorter = make.cued(NARROW);
        shorter.input.truncate(12 * 128 - numbers);
        shorter.input[7] = f64::NAN;
        make.cued(NARROW).left -= numbers;
        make.cued(NARROW).left += numbers;
        make.cued(WIDE).right -= numbers;
        make.call(Vec::new()).right += numbers;
        make.cued(NARROW).input.resize(12 * 128 + numbers, f64::NAN);
    }
    make.cued(WIDE).input.clear();
    let swapped = make.cued(NARROW);
    (swapped.left, swapped.right) = (767, 769);
    let empty = make.cued(NARROW);
    (empty.left, empty.right) = (0, 0);
    make.cued(WIDE).input.resize(15 * 128, f64::INFINITY);
    make.call(Vec::new());
    make.done()
}

/// Samples beyond the limit in the first and the last place that is read, and at it from there on.
fn special_samples() -> Run {
    let mut make = Maker::new(5, 6);
    let above = LARGEST_SAMPLE.next_up();
    let infinite = f64::INFINITY;
    make.cued(NARROW);
    for (place, head) in [(0, NARROW), (1535, WIDE), (777, NARROW)] {
        for sample in [above, -above, f64::NAN, infinite, -infinite, f64::MAX] {
            make.cued(head).input[place] = sample;
        }
        let good = make.cued(head);
        let least = f64::from_bits(1);
        for (distance, sample) in [LARGEST_SAMPLE, -LARGEST_SAMPLE, -0.0, least, -least]
            .iter()
            .enumerate()
        {
            good.input[place.abs_diff(distance * 128)] = *sample;
        }
    }
    let silent = make.line(NARROW);
    make.sound(silent, Kind::Silence, 0).input.fill(-0.0);
    make.done()
}

/// Each edge in each layout, and an empty line, after which a frame clears the whole bank.
fn edges() -> Run {
    let mut make = Maker::new(6, 6);
    for head in [NARROW, WIDE] {
        for edge in EDGES {
            make.cued(head).edge = edge;
        }
        make.call(Vec::new()).edge = 0;
        make.cued(head).edge = u64::MAX;
    }
    make.done()
}

/// Held frames by an empty line and by no envelopes, within a layout and where it changes.
fn held() -> Run {
    let mut make = Maker::new(7, 6);
    for head in [NARROW, WIDE, NARROW] {
        make.cued(head);
        make.call(Vec::new());
        make.call(b"16".to_vec());
        make.cued([head[0], head[1], head[2], 0]);
        make.cued([3, head[1], head[2], 1]);
    }
    make.cued([8, 2, 2, 3]);
    make.call(Vec::new());
    make.done()
}

/// Borders that rise, repeat, fall back and lie beyond the last slot.
fn borders(asked: u64, rows: &[[u8; 4]]) -> Run {
    let mut make = Maker::new(8, asked);
    for (number, row) in rows.iter().enumerate() {
        let mut line = bytes(&mut make.random, [15, number as u8 % 3, 3, 4]);
        line[4..8].copy_from_slice(row);
        make.call(hexadecimal(&line));
    }
    make.done()
}

/// Sounds that the transient detectors hear, and each way of samples.
fn transients() -> Run {
    let mut make = Maker::new(9, 8);
    for (number, kind) in samples::KINDS.into_iter().enumerate() {
        let line = make.line(if number % 4 < 2 { NARROW } else { WIDE });
        make.sound(line, kind, 20 - 3 * number as i32);
    }
    make.done()
}

/// Two frames for an asked number of slots, or one.
fn asked(asked: u64, frames: usize) -> Run {
    let mut make = Maker::new(10 + asked, asked);
    for head in [[11, 4, 2, 4], [7, 0, 3, 3]].into_iter().take(frames) {
        make.cued(head).edge = 32;
    }
    make.done()
}

pub fn runs() -> Vec<Run> {
    let falling = [
        [1, 3, 3, 5],
        [4, 2, 0, 3],
        [31, 6, 5, 1],
        [0, 0, 0, 0],
        [5, 4, 3, 31],
        [2, 9, 1, 4],
    ];
    vec![
        modes(),
        quiet(),
        lines(),
        buffers(),
        special_samples(),
        edges(),
        held(),
        borders(6, &falling),
        borders(32, &[[20, 7, 30, 12]]),
        transients(),
        asked(0, 2),
        asked(7, 2),
        asked(30, 2),
        asked(33, 1),
    ]
}
