//! `runs`: calls with their answers and the tabled Rust's output, in the form that crates/replay reads.

use crate::decoder::{Frame, Outcome, Run, play};
use crate::random::Random;
use crate::tabled;
use std::io::{self, Write};

const END: u8 = 0;
const RUN: u8 = 1;
const CALL: u8 = 2;
/// Bytes of a record's head.
const HEAD: usize = 56;

/// A head with one number in it, and nothing behind: what a run asks, or the end.
fn short(kind: u8, number: u64) -> Vec<u8> {
    let mut record = vec![0; HEAD];
    record[0] = kind;
    record[8..16].copy_from_slice(&number.to_le_bytes());
    record
}

/// The samples that are not what the frame's noise gives, place and bits.
fn given(frame: &Frame) -> Vec<(u32, u64)> {
    let mut random = Random {
        state: frame.noise.state,
    };
    let noise = frame.noise.numbers(&mut random, frame.input.len());
    let pairs = noise.iter().zip(&frame.input).enumerate();
    pairs
        .filter(|(_, (made, wanted))| made.to_bits() != wanted.to_bits())
        .map(|(place, (_, wanted))| (place as u32, wanted.to_bits()))
        .collect()
}

fn call(frame: &Frame, outcome: &Outcome) -> Vec<u8> {
    let noise = frame.noise;
    let given = given(frame);
    let counts = [
        noise.reach,
        given.len(),
        frame.line.len(),
        frame.input.len(),
        frame.left,
        frame.right,
        outcome.place,
        usize::from(outcome.held),
    ];
    let mut record = vec![CALL, outcome.answer];
    record.extend((noise.width as u16).to_le_bytes());
    record.extend((noise.state as u32).to_le_bytes());
    record.extend(frame.edge.to_le_bytes());
    record.extend(noise.step.to_le_bytes());
    counts
        .iter()
        .for_each(|&count| record.extend((count as u32).to_le_bytes()));
    record.extend(&frame.line);
    for (place, bits) in given {
        record.extend(place.to_le_bytes());
        record.extend(bits.to_le_bytes());
    }
    let output = outcome.left.iter().chain(&outcome.right);
    output.for_each(|number| record.extend(number.to_le_bytes()));
    record
}

/// Writes a stream, and answers the line that a replay must say of it.
pub fn write_all(
    mut output: impl Write,
    runs: impl IntoIterator<Item = Run>,
) -> io::Result<String> {
    let (mut begun, mut accepted, mut refused, mut quiet) = (0, 0, 0, 0);
    for run in runs {
        begun += 1;
        output.write_all(&short(RUN, run.asked))?;
        let outcomes = play::<tabled::Variant>(&run);
        for (frame, outcome) in run.frames.iter().zip(&outcomes) {
            match outcome.answer {
                0 => accepted += 1,
                1 => quiet += 1,
                _ => refused += 1,
            }
            output.write_all(&call(frame, outcome))?;
        }
    }
    output.write_all(&short(END, 0))?;
    output.flush()?;
    Ok(format!(
        "replay: {begun} runs held: {accepted} frames accepted, {refused} refused, {quiet} quiet"
    ))
}

/// A stream to standard output, and to standard error what a replay must say; false where its reader stops early.
pub fn print(runs: impl IntoIterator<Item = Run>) -> bool {
    let said = write_all(io::BufWriter::new(io::stdout().lock()), runs);
    said.is_ok_and(|line| {
        eprintln!("{line}");
        true
    })
}
