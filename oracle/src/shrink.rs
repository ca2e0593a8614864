//! `shrink`: the fewest frames of a run, and the fewest samples, that still show a distance.

use crate::compare::{Distance, beyond};
use crate::decoder::{Run, slots_of};
use crate::runs;

/// Drop what is not needed, one thing at a time; print the rest.
pub fn shrink(seed: u64, all_faint: bool) -> bool {
    let mut run = runs::run(seed, all_faint);
    let Some(first) = beyond(&run).first().map(|distance| distance.frame) else {
        println!("run seed {seed}: no frame beyond 2^-30");
        return false;
    };
    run.frames.truncate(first + 1);
    cut(&mut run, &|run| !beyond(run).is_empty());
    print(&run);
    true
}

/// Fewest frames, then fewest samples, that still show what is looked for.
pub fn cut(run: &mut Run, shows: &dyn Fn(&Run) -> bool) {
    drop_frames(run, shows);
    for frame in 0..run.frames.len() {
        silence(run, frame, shows);
    }
}

fn drop_frames(run: &mut Run, shows: &dyn Fn(&Run) -> bool) {
    let mut place = 0;
    while place < run.frames.len() {
        let mut fewer = run.clone();
        fewer.frames.remove(place);
        if shows(&fewer) {
            *run = fewer;
        } else {
            place += 1;
        }
    }
}

/// Silence ever smaller pieces of a frame's input while it shows.
fn silence(run: &mut Run, frame: usize, shows: &dyn Fn(&Run) -> bool) {
    let mut size = run.frames[frame].input.len() / 2;
    while size > 0 {
        for start in (0..run.frames[frame].input.len()).step_by(size) {
            let input = &run.frames[frame].input;
            let end = (start + size).min(input.len());
            if input[start..end].iter().all(|&sample| sample == 0.0) {
                continue;
            }
            let mut quieter = run.clone();
            quieter.frames[frame].input[start..end].fill(0.0);
            if shows(&quieter) {
                *run = quieter;
            }
        }
        size /= 2;
    }
}

/// A run, and its frames beyond 2^-30.
pub fn print(run: &Run) {
    print_run(run);
    for distance in beyond(run) {
        print_distance(&distance);
    }
}

pub fn print_run(run: &Run) {
    println!("asked slots {}, slots {}", run.asked, slots_of(run.asked));
    for (number, frame) in run.frames.iter().enumerate() {
        let line = String::from_utf8_lossy(&frame.line);
        println!("frame {number}: edge {}, line {line}", frame.edge);
        println!(
            "  numbers lent: input {}, left {}, right {}",
            frame.input.len(),
            frame.left,
            frame.right
        );
        let samples: Vec<_> = frame
            .input
            .iter()
            .enumerate()
            .filter(|(_, s)| **s != 0.0)
            .collect();
        for (place, sample) in samples.iter().take(8) {
            let part = if place % 2 == 0 { "re" } else { "im" };
            println!(
                "  row {} band {} {part}: {sample:e}",
                place / 128,
                place % 128 / 2
            );
        }
        println!("  samples other than 0: {}", samples.len());
    }
}

fn print_distance(distance: &Distance) {
    println!(
        "frame {}: apart {:e}, largest input {:e}, ratio {:e}",
        distance.frame,
        distance.apart,
        distance.largest,
        distance.ratio()
    );
}
