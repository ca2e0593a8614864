//! `variants` and `stages`: the untouched Rust against the one with the tables.

use crate::coverage::{Before, Coverage};
use crate::decoder::{Decoder, Frame, Outcome, Run};
use crate::judge::{Judge, Stages};
use crate::runs;
use crate::samples::power_of_two;
use crate::{tabled, tables, untouched};

/// Below this, band powers and what they decay to may be subnormal and lose their digits.
pub const FAINT: i32 = -480;

/// How far apart the two variants are in one accepted frame.
pub struct Distance {
    pub frame: usize,
    pub apart: f64,
    /// The largest magnitude that the run had as input up to here.
    pub largest: f64,
}

impl Distance {
    pub fn beyond(&self) -> bool {
        // The bound itself could round to 0 in a faint run; this product is exact.
        !(self.apart * power_of_two(30) <= self.largest)
    }

    pub fn faint(&self) -> bool {
        self.largest < power_of_two(FAINT)
    }

    pub fn ratio(&self) -> f64 {
        if self.apart == 0.0 {
            0.0
        } else {
            self.apart / self.largest
        }
    }
}

/// Both variants side by side over one run.
pub struct Pair {
    pub untouched: Decoder<untouched::Variant>,
    pub tabled: Decoder<tabled::Variant>,
    largest: f64,
}

impl Pair {
    pub fn fresh(asked: u64) -> Self {
        Pair {
            untouched: Decoder::fresh(asked),
            tabled: Decoder::fresh(asked),
            largest: 0.0,
        }
    }

    /// The answer, and the distance if the frame was accepted.
    pub fn frame(&mut self, number: usize, frame: &Frame) -> (u8, Option<Distance>) {
        let first = self.untouched.frame(frame);
        let second = self.tabled.frame(frame);
        if first.answer != 0 {
            return (first.answer, None);
        }
        let read = &frame.input[..(self.untouched.slots + 6) * 128];
        self.largest = read
            .iter()
            .fold(self.largest, |most, sample| most.max(sample.abs()));
        let apart = apart(&first, &second);
        (
            0,
            Some(Distance {
                frame: number,
                apart,
                largest: self.largest,
            }),
        )
    }
}

fn apart(first: &Outcome, second: &Outcome) -> f64 {
    furthest(&first.left, &second.left).max(furthest(&first.right, &second.right))
}

/// The largest distance of two lists; what is not a number counts as infinitely far.
pub fn furthest(first: &[f64], second: &[f64]) -> f64 {
    assert_eq!(first.len(), second.len());
    let distance = |(a, b): (&f64, &f64)| {
        let apart = (a - b).abs();
        if apart.is_nan() { f64::INFINITY } else { apart }
    };
    first.iter().zip(second).map(distance).fold(0.0, f64::max)
}

/// Every accepted frame of a run that is beyond 2^-30.
pub fn beyond(run: &Run) -> Vec<Distance> {
    let mut pair = Pair::fresh(run.asked);
    let frames = run.frames.iter().enumerate();
    let distances = frames.filter_map(|(number, frame)| pair.frame(number, frame).1);
    distances.filter(Distance::beyond).collect()
}

#[derive(Default)]
struct Tally {
    coverage: Coverage,
    accepted: usize,
    runs: usize,
    faint: usize,
    worst: f64,
    worst_faint: f64,
    beyond: usize,
    beyond_faint: usize,
    /// The largest input of a frame that is beyond.
    loudest_beyond: f64,
}

impl Tally {
    fn run(&mut self, seed: u64, all_faint: bool) {
        let run = runs::run(seed, all_faint);
        let mut pair = Pair::fresh(run.asked);
        let mut before = Before::default();
        for (number, frame) in run.frames.iter().enumerate() {
            let (answer, distance) = pair.frame(number, frame);
            self.coverage.answer(answer);
            if let Some(distance) = distance {
                self.coverage.accepted(&mut before, &pair.untouched, frame);
                self.accepted += 1;
                self.distance(seed, &distance);
            }
        }
        self.runs += 1;
    }

    fn distance(&mut self, seed: u64, distance: &Distance) {
        let faint = distance.faint();
        self.faint += usize::from(faint);
        let worst = if faint {
            &mut self.worst_faint
        } else {
            &mut self.worst
        };
        *worst = worst.max(distance.ratio());
        if !distance.beyond() {
            return;
        }
        self.loudest_beyond = self.loudest_beyond.max(distance.largest);
        let name = if faint { "beyond (faint)" } else { "BEYOND" };
        println!(
            "{name}: run seed {seed} frame {}: apart {:e}, largest input {:e}, ratio {:e}",
            distance.frame,
            distance.apart,
            distance.largest,
            distance.ratio()
        );
        let count = if faint {
            &mut self.beyond_faint
        } else {
            &mut self.beyond
        };
        *count += 1;
    }

    fn print(&self) {
        println!("runs: {}, accepted frames: {}", self.runs, self.accepted);
        self.coverage.print();
        tables::print_met();
        println!("frames with largest input below 2^{FAINT}: {}", self.faint);
        println!(
            "  worst ratio {}, beyond 2^-30: {}",
            shown(self.worst_faint),
            self.beyond_faint
        );
        println!("frames with a larger input: {}", self.accepted - self.faint);
        println!(
            "  worst ratio {}, beyond 2^-30: {}",
            shown(self.worst),
            self.beyond
        );
        if self.beyond + self.beyond_faint > 0 {
            println!(
                "largest input of a frame beyond: {}",
                shown(self.loudest_beyond)
            );
        }
    }
}

fn shown(number: f64) -> String {
    format!("{number:e} (2^{:.1})", number.log2())
}

/// Runs from seed on until that many frames were accepted; true if none is beyond but faint ones.
pub fn variants(frames: usize, seed: u64, all_faint: bool) -> bool {
    let mut tally = Tally::default();
    while tally.accepted < frames {
        tally.run(seed + tally.runs as u64, all_faint);
        if tally.runs % 200 == 0 {
            eprintln!(
                "{} runs, {} of {frames} accepted frames",
                tally.runs, tally.accepted
            );
        }
    }
    tally.print();
    tally.beyond == 0
}

/// The worst ratio at each place between the stages, over runs that are not faint.
pub fn stages(frames: usize, seed: u64) -> bool {
    untouched::Variant::watch(true);
    tabled::Variant::watch(true);
    let mut worst = [0.0f64; 4];
    let (mut accepted, mut runs) = (0, 0);
    while accepted < frames {
        let run = runs::run(seed + runs, false);
        let mut pair = Pair::fresh(run.asked);
        for (number, frame) in run.frames.iter().enumerate() {
            let Some(distance) = pair.frame(number, frame).1 else {
                continue;
            };
            accepted += 1;
            if !distance.faint() {
                worsen(&mut worst, distance.largest);
            }
        }
        runs += 1;
    }
    println!("runs: {runs}, accepted frames: {accepted}");
    for (name, ratio) in ["analysis", "de-correlation", "left mix", "right mix"]
        .iter()
        .zip(worst)
    {
        println!("{name}: worst ratio {}", shown(ratio));
    }
    worst.iter().all(|&ratio| ratio <= power_of_two(-30))
}

fn worsen(worst: &mut [f64; 4], largest: f64) {
    let places = |stages: Stages| {
        [
            stages.hybrid,
            stages.decorrelated,
            stages.left,
            stages.right,
        ]
    };
    let first = places(untouched::Variant::stages());
    let second = places(tabled::Variant::stages());
    for place in 0..4 {
        let ratio = furthest(&first[place], &second[place]) / largest;
        worst[place] = worst[place].max(ratio);
    }
}
