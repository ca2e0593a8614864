//! `smallest`: one frame with one sample on which the two variants are beyond 2^-30.

use crate::compare::{Distance, beyond, furthest};
use crate::decoder::{Frame, Run, play, slots_of};
use crate::lines::hexadecimal;
use crate::samples::{SILENCE, power_of_two};
use crate::shrink::print;
use crate::tabled;

/// One frame of silence but for the real part of one band in one row.
fn impulse(asked: u64, bytes: &[u8], row: usize, band: usize, sample: f64) -> Run {
    let slots = slots_of(asked);
    let mut input = vec![0.0; (slots + 6) * 128];
    input[row * 128 + band * 2] = sample;
    let line = hexadecimal(bytes);
    let (left, right) = (slots * 128, slots * 128);
    Run {
        asked,
        frames: vec![Frame {
            line,
            input,
            noise: SILENCE,
            left,
            right,
            edge: 64,
        }],
    }
}

/// The least number of all: a coefficient on either side of one half rounds it up or away.
fn least() -> bool {
    for mode in 0..36 {
        for row in 0..6 {
            let run = impulse(6, &[0, mode / 6, mode % 6, 1], row, 3, power_of_two(-1074));
            if !beyond(&run).is_empty() {
                println!("the least sample:");
                print(&run);
                return true;
            }
        }
    }
    false
}

/// The line whose output is the de-correlated signal alone: every ICC index 7, procedure Ra.
fn decorrelated_only(wide: bool) -> Vec<u8> {
    let (mode, count) = if wide { (2, 34) } else { (0, 10) };
    let mut bytes = vec![2, 0, mode, 1, 0, 7];
    bytes.resize(5 + count, 0);
    bytes
}

/// Where an impulse stands while its height is sought.
struct Place {
    asked: u64,
    bytes: Vec<u8>,
    row: usize,
    band: usize,
}

impl Place {
    fn run(&self, sample: f64) -> Run {
        impulse(self.asked, &self.bytes, self.row, self.band, sample)
    }

    /// The tabled output for a sample of height 1; it jumps only where a power rounds otherwise.
    fn shape(&self, sample: f64) -> Vec<f64> {
        let outcome = play::<tabled::Variant>(&self.run(sample)).remove(0);
        outcome.left.iter().map(|number| number / sample).collect()
    }

    /// Samples beyond, loudest first: near a jump of one variant the other has not jumped yet.
    fn found(&self, loudest: i32, faintest: i32) -> impl Iterator<Item = f64> {
        let mut high = power_of_two(loudest);
        let mut above = self.shape(high);
        let steps = core::iter::from_fn(move || {
            let low = high * 0.984375;
            let below = self.shape(low);
            let jumps = furthest(&below, &above) > power_of_two(-26);
            let step = (low, high, jumps);
            (high, above) = (low, below);
            (low > power_of_two(faintest)).then_some(step)
        });
        let jumping = steps.filter(|step| step.2);
        jumping.filter_map(|(low, high, _)| self.beside(self.jump(low, high)))
    }

    /// The upper of two neighbouring floats between which the largest jump lies.
    fn jump(&self, low: f64, high: f64) -> f64 {
        let (mut low, mut high) = (low.to_bits(), high.to_bits());
        let (mut below, mut above) = (
            self.shape(f64::from_bits(low)),
            self.shape(f64::from_bits(high)),
        );
        while high - low > 1 {
            let half = low + (high - low) / 2;
            let between = self.shape(f64::from_bits(half));
            if furthest(&below, &between) > furthest(&between, &above) {
                (high, above) = (half, between);
            } else {
                (low, below) = (half, between);
            }
        }
        f64::from_bits(high)
    }

    fn beside(&self, jump: f64) -> Option<f64> {
        let bits = jump.to_bits();
        let near = (bits - 32..bits + 32).rev().map(f64::from_bits);
        near.into_iter()
            .find(|&sample| !beyond(&self.run(sample)).is_empty())
    }
}

/// Both layouts, their split bands, three rows.
fn places() -> Vec<Place> {
    let mut places = Vec::new();
    for (wide, bands) in [(false, 3), (true, 5)] {
        for band in 0..bands {
            for row in [0, 3, 6] {
                places.push(Place {
                    asked: 6,
                    bytes: decorrelated_only(wide),
                    row,
                    band,
                });
            }
        }
    }
    places
}

/// The loudest impulse that a vanishing band power shows.
fn loudest() -> bool {
    let found = places().into_iter().filter_map(|place| {
        eprintln!("loudest: band {} row {}", place.band, place.row);
        place
            .found(-516, -538)
            .next()
            .map(|sample| (sample, place.run(sample)))
    });
    let Some((sample, run)) = found.max_by(|a, b| a.0.total_cmp(&b.0)) else {
        return false;
    };
    println!("the loudest impulse found (2^{:.2}):", sample.log2());
    print(&run);
    true
}

/// The impulse whose ratio is the worst, sought where powers are a few least numbers.
fn worst() -> bool {
    let ratio = |run: &Run| beyond(run).iter().map(Distance::ratio).fold(0.0, f64::max);
    let found = places().into_iter().flat_map(|place| {
        eprintln!("worst: band {} row {}", place.band, place.row);
        let runs: Vec<Run> = place
            .found(-530, -538)
            .map(|sample| place.run(sample))
            .collect();
        runs
    });
    let Some(run) = found.max_by(|a, b| ratio(a).total_cmp(&ratio(b))) else {
        return false;
    };
    println!("the impulse with the worst ratio found:");
    print(&run);
    true
}

pub fn search() -> bool {
    least() & loudest() & worst()
}
