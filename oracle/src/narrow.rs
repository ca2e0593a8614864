//! `narrow`: the fewest frames of a run, and the fewest samples, that a replaying program does not find as the Rust has them.

use crate::decoder::Run;
use crate::shrink::{cut, print_run};
use crate::{runs, stream};
use std::process::{Command, Stdio};

/// What the program says of a stream of one run.
fn said(program: &[String], run: &Run) -> String {
    let mut child = Command::new(&program[0])
        .args(&program[1..])
        .stdin(Stdio::piped())
        .stdout(Stdio::piped())
        .spawn()
        .expect("the program starts");
    let input = child.stdin.take().expect("a pipe");
    // It stops reading where it finds a difference.
    let _ = stream::write_all(input, [run.clone()]);
    let output = child.wait_with_output().expect("the program ends");
    String::from_utf8_lossy(&output.stdout).into_owned()
}

pub fn narrow(seed: u64, program: &[String]) -> bool {
    let differs = |run: &Run| !said(program, run).contains(" held: ");
    let mut run = runs::with_refusals(seed);
    if !differs(&run) {
        println!("run seed {seed}: held");
        return true;
    }
    cut(&mut run, &differs);
    print_run(&run);
    print!("{}", said(program, &run));
    false
}
