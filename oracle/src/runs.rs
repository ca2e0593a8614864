//! Whole runs by chance: lines, samples, buffer lengths and edges, with refusals among them.

use crate::decoder::{Frame, LARGEST_SAMPLE, Run, accepted, slots_of};
use crate::line::READER;
use crate::lines::{self, Style};
use crate::random::Random;
use crate::samples::{self, FAINTEST, KINDS, Kind, Noise};

/// What a run's frames share.
struct Plan {
    slots: usize,
    scale: i32,
    style: Style,
}

/// The run of a seed; the same everywhere. One run of sixteen is faint, or all of them.
pub fn run(seed: u64, all_faint: bool) -> Run {
    let mut random = Random::new(seed);
    let asked = asked(&mut random);
    let faint = random.one_in(16) || all_faint;
    let mut plan = Plan {
        slots: slots_of(asked),
        scale: if faint {
            faint_scale(&mut random)
        } else {
            scale(&mut random)
        },
        style: Style::new(&mut random),
    };
    let count = 1 + random.below(24);
    let frames = (0..count).map(|_| frame(&mut random, &mut plan)).collect();
    Run { asked, frames }
}

/// The run of a seed, with calls before each frame that are refused or quiet. The accepted frames stay those of `run`.
pub fn with_refusals(seed: u64) -> Run {
    let mut random = Random::new(seed + 2147483648);
    let Run { asked, frames } = run(seed, false);
    let slots = slots_of(asked);
    let mut configured = false;
    let mut calls = Vec::new();
    for frame in frames {
        for _ in 0..random.below(3) {
            let call = spoilt(&mut random, slots, &frame);
            if accepted(&READER, slots, configured, &call).is_err() {
                calls.push(call);
            }
        }
        configured |= accepted(&READER, slots, configured, &frame).is_ok();
        calls.push(frame);
    }
    Run {
        asked,
        frames: calls,
    }
}

fn spoilt(random: &mut Random, slots: usize, frame: &Frame) -> Frame {
    let mut call = frame.clone();
    match random.below(3) {
        0 => {
            let mut style = Style::new(random);
            call.line = lines::bad(random, &mut style);
        }
        1 => spoil_lengths(random, &mut call),
        _ => spoil_sample(random, slots, &mut call.input),
    }
    call
}

fn asked(random: &mut Random) -> u64 {
    match random.below(4) {
        0 | 1 => random.pick(&[32, 32, 30]),
        2 => 6 + random.below(27) as u64,
        _ => random.pick(&[0, 1, 5, 6, 33, 64, 4294967296, u64::MAX]),
    }
}

fn scale(random: &mut Random) -> i32 {
    random.below(51) as i32 - 30
}

/// So faint that powers vanish, or nearly so: about 2^-537 is the root of the least number.
fn faint_scale(random: &mut Random) -> i32 {
    match random.below(4) {
        0 => FAINTEST + random.below(500) as i32,
        _ => -480 - random.below(80) as i32,
    }
}

fn frame(random: &mut Random, plan: &mut Plan) -> Frame {
    let line = match random.below(10) {
        0 | 1 => Vec::new(),
        2 => lines::bad(random, &mut plan.style),
        _ => lines::good(random, &mut plan.style),
    };
    let written = plan.slots * 128;
    let (input, noise) = input(random, plan);
    let edge = edge(random);
    let mut frame = Frame {
        line,
        input,
        noise,
        left: written,
        right: written,
        edge,
    };
    if random.one_in(12) {
        spoil_lengths(random, &mut frame);
    }
    if random.one_in(12) {
        spoil_sample(random, plan.slots, &mut frame.input);
    }
    frame
}

/// Noise half of the time; rows beyond those read may hold anything.
fn input(random: &mut Random, plan: &Plan) -> (Vec<f64>, Noise) {
    let faint = plan.scale < -30;
    let kind = if random.one_in(2) {
        Kind::Noise
    } else {
        random.pick(&KINDS)
    };
    // A loud number would end a faint run.
    let kind = if faint && matches!(kind, Kind::Special) {
        Kind::Impulse
    } else {
        kind
    };
    let scale = if !faint && random.one_in(4) {
        scale(random)
    } else {
        plan.scale
    };
    let (mut input, noise) = samples::fill(random, kind, scale, plan.slots + 6);
    if random.one_in(8) {
        let more = 128 * (1 + random.below(3));
        input.resize(
            input.len() + more,
            random.pick(&[0.0, f64::NAN, f64::INFINITY, 2e6]),
        );
    }
    (input, noise)
}

fn edge(random: &mut Random) -> u64 {
    match random.below(3) {
        0 => random.pick(&[0, 32, 63, 64, 65]),
        1 => random.below(65) as u64,
        _ => random.pick(&[0, 32, 64, 65536, u64::MAX - 27, u64::MAX - 7, u64::MAX]),
    }
}

fn spoil_lengths(random: &mut Random, frame: &mut Frame) {
    let numbers = random.pick(&[1, 2, 64, 127, 128]);
    match random.below(5) {
        0 => frame
            .input
            .truncate(frame.input.len().saturating_sub(numbers)),
        1 => frame.input.resize(frame.input.len() + numbers, 0.0),
        2 => frame.left += numbers,
        3 => frame.right -= numbers,
        _ => frame.input.clear(),
    }
}

/// A sample that is refused, somewhere in the rows that are read.
fn spoil_sample(random: &mut Random, slots: usize, input: &mut [f64]) {
    let place = random.below((slots + 6) * 128);
    if place < input.len() {
        let above = LARGEST_SAMPLE.next_up();
        let infinite = f64::INFINITY;
        input[place] = random.pick(&[f64::NAN, infinite, -infinite, above, -above, 1e300]);
    }
}
