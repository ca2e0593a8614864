//! `stage-runs`: accepted frames with the tabled Rust's numbers after each stage, in the form that crates/stages reads.

use crate::decoder::{Decoder, Frame};
use crate::judge::Judge;
use crate::{runs, tabled};
use std::io::{self, Write};

const END: u8 = 0;
const FRAME: u8 = 1;

/// Where a frame stands: the seed of its run, what that asks, whether it is the run's first accepted one, and its number among all frames.
struct Place {
    seed: u64,
    asked: u64,
    starts: bool,
    number: u32,
}

/// 48 bytes before a frame: what it is, how many numbers follow of each kind, and how many frames in a row were held.
fn head(place: &Place, frame: &Frame, counts: [usize; 4]) -> Vec<u8> {
    let mut head = vec![FRAME, u8::from(place.starts)];
    head.extend((frame.line.len() as u16).to_le_bytes());
    head.extend(place.number.to_le_bytes());
    for number in [place.seed, place.asked, frame.edge] {
        head.extend(number.to_le_bytes());
    }
    for count in counts {
        head.extend((count as u32).to_le_bytes());
    }
    head
}

fn numbers(output: &mut impl Write, numbers: &[f64]) -> io::Result<()> {
    let bytes: Vec<u8> = numbers
        .iter()
        .flat_map(|number| number.to_le_bytes())
        .collect();
    output.write_all(&bytes)
}

/// The accepted frames of a run, and how many they are.
fn write_run(output: &mut impl Write, seed: u64) -> io::Result<usize> {
    let run = runs::run(seed, false);
    let mut decoder = Decoder::<tabled::Variant>::fresh(run.asked);
    let mut accepted = 0;
    for (number, frame) in run.frames.iter().enumerate() {
        let outcome = decoder.frame(frame);
        if outcome.answer != 0 {
            continue;
        }
        let place = Place {
            seed,
            asked: run.asked,
            starts: accepted == 0,
            number: number as u32,
        };
        let stages = tabled::Variant::stages();
        let input = &frame.input[..(decoder.slots + 6) * 128];
        let counts = [
            input.len(),
            stages.hybrid.len(),
            outcome.left.len(),
            usize::from(outcome.held),
        ];
        output.write_all(&head(&place, frame, counts))?;
        output.write_all(&frame.line)?;
        let hybrid = [
            &stages.hybrid,
            &stages.decorrelated,
            &stages.left,
            &stages.right,
        ];
        numbers(output, input)?;
        for list in hybrid.into_iter().chain([&outcome.left, &outcome.right]) {
            numbers(output, list)?;
        }
        accepted += 1;
    }
    Ok(accepted)
}

fn write_runs(output: &mut impl Write, frames: usize, seed: u64) -> io::Result<()> {
    let (mut accepted, mut runs) = (0, 0);
    while accepted < frames {
        accepted += write_run(output, seed + runs)?;
        runs += 1;
    }
    let mut end = vec![END];
    end.resize(48, 0);
    output.write_all(&end)?;
    output.flush()
}

/// At least that many accepted frames to standard output; false where the reader stops early.
pub fn print(frames: usize, seed: u64) -> bool {
    tabled::Variant::watch(true);
    write_runs(&mut io::BufWriter::new(io::stdout().lock()), frames, seed).is_ok()
}
