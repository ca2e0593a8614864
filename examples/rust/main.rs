//! The same three frames as examples/c, from Rust: no crate is needed, only the archive and lefasumu.rs.

mod lefasumu;

use lefasumu::{Decoder, ROW};

const SLOTS: usize = 8;

fn play(decoder: &mut Decoder, line: &str, input: &[f64]) -> u32 {
    let answer = decoder.frame(line.as_bytes(), input, 64);
    let place = (SLOTS - 1) * ROW + 40;
    println!("answer {answer}, band 20 of the last slot: left {:.6}, right {:.6}", decoder.left[place], decoder.right[place]);
    answer
}

fn main() {
    let mut decoder = Decoder::start(SLOTS);
    let input: Vec<f64> = (0..(SLOTS + 6) * ROW).map(|i| if i % 2 == 0 { 0.5 } else { 0.0 }).collect();
    // IID in one envelope, 10 bands, frequency rows: every index 5
    assert_eq!(play(&mut decoder, "010000010005000000000000000000", &input), 0);
    assert_eq!(play(&mut decoder, "", &input), 0);
    assert_eq!(play(&mut decoder, "0100000100050000000000000000zz", &input), 2);
}
