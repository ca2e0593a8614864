//! The oracle: the Rust that was ported, asked by generated runs. See oracle/README.md.

mod bits;
mod compare;
mod coverage;
mod decoder;
mod fixed;
mod gamma;
mod judge;
mod line;
mod lines;
mod listing;
mod narrow;
mod places;
mod random;
mod runs;
mod samples;
mod shrink;
mod smallest;
mod stage_runs;
mod stream;
mod table_check;
mod table_data;
mod tabled;
mod tables;
mod untouched;

use std::process::ExitCode;

const USAGE: &str = "usage: oracle tables
       oracle variants [--frames N] [--seed S] [--faint]
       oracle stages [--frames N] [--seed S]
       oracle stage-runs [--frames N] [--seed S] > STREAM
       oracle shrink --seed RUN_SEED [--faint]
       oracle smallest
       oracle gamma
       oracle indices < LINES
       oracle maps < ROWS
       oracle lines [--count N] [--seed S]
       oracle places [--count N] [--seed S]
       oracle runs [--count N] [--seed S] > STREAM
       oracle runs --fixed > STREAM
       oracle narrow --seed RUN_SEED PROGRAM [WORDS]";

/// The number after an option, or its default; a bad one ends the program.
fn option(words: &[String], name: &str, default: u64) -> u64 {
    let Some(place) = words.iter().position(|word| word == name) else {
        return default;
    };
    match words.get(place + 1).map(|word| word.parse()) {
        Some(Ok(number)) => number,
        _ => {
            eprintln!("oracle: {name} needs a number");
            std::process::exit(2);
        }
    }
}

/// A misspelt option must not pass for its default.
fn known(word: &String) -> bool {
    let options = ["--frames", "--count", "--seed", "--faint", "--fixed"];
    !word.starts_with('-') || options.contains(&word.as_str())
}

fn main() -> ExitCode {
    let words: Vec<String> = std::env::args().skip(1).collect();
    if !words.iter().all(known) {
        eprintln!("{USAGE}");
        return ExitCode::from(2);
    }
    let frames = option(&words, "--frames", 10_000) as usize;
    let count = option(&words, "--count", 1_000) as usize;
    let seed = option(&words, "--seed", 1);
    let given = |name: &str| words.iter().any(|word| word == name);
    let faint = given("--faint");
    let held = match words.first().map(String::as_str) {
        Some("tables") => table_check::check(),
        Some("variants") => compare::variants(frames, seed, faint),
        Some("stages") => compare::stages(frames, seed),
        Some("stage-runs") => stage_runs::print(option(&words, "--frames", 2_000) as usize, seed),
        Some("shrink") => shrink::shrink(seed, faint),
        Some("smallest") => smallest::search(),
        Some("gamma") => gamma::measure(),
        Some("indices") => listing::indices(),
        Some("maps") => listing::maps(),
        Some("lines") => listing::print_lines(count, seed),
        Some("places") => places::check(count, seed),
        Some("runs") if given("--fixed") => stream::print(fixed::runs()),
        Some("runs") => stream::print((seed..seed + count as u64).map(runs::with_refusals)),
        Some("narrow") if words.len() > 3 => narrow::narrow(seed, &words[3..]),
        _ => {
            eprintln!("{USAGE}");
            return ExitCode::from(2);
        }
    };
    if held {
        ExitCode::SUCCESS
    } else {
        ExitCode::FAILURE
    }
}
