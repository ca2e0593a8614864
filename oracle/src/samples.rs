//! Input samples, each an exact product of a small whole number and a power of two.

use crate::decoder::LARGEST_SAMPLE;
use crate::random::Random;

/// The least positive number is 2^-1074; a sample has 31 bits and a sign.
pub const FAINTEST: i32 = -1074 + 31;

#[derive(Clone, Copy)]
pub enum Kind {
    Noise,
    Silence,
    Impulse,
    RowScales,
    Special,
    Subnormal,
    LowBands,
    FirstRow,
}

pub const KINDS: [Kind; 8] = [
    Kind::Noise,
    Kind::Silence,
    Kind::Impulse,
    Kind::RowScales,
    Kind::Special,
    Kind::Subnormal,
    Kind::LowBands,
    Kind::FirstRow,
];

/// 2^exponent by doubling or halving 1; exact down to 2^-1074.
pub fn power_of_two(exponent: i32) -> f64 {
    let factor = if exponent < 0 { 0.5 } else { 2.0 };
    (0..exponent.unsigned_abs()).fold(1.0, |power, _| power * factor)
}

/// (x' - 2^31) * step, at most 2^31 steps away from 0.
fn number(random: &mut Random, step: f64) -> f64 {
    (random.next() as i64 - 2147483648) as f64 * step
}

/// Noise that can be made again: one step a number, in the first `width` numbers of each row, as far as `reach`.
#[derive(Clone, Copy)]
pub struct Noise {
    pub state: u64,
    pub step: f64,
    pub width: usize,
    pub reach: usize,
}

pub const SILENCE: Noise = Noise {
    state: 0,
    step: 0.0,
    width: 0,
    reach: 0,
};

impl Noise {
    /// The noise of a kind, from where the generator is; the kinds with rules of their own have none.
    fn of(random: &Random, kind: Kind, scale: i32, rows: usize) -> Noise {
        let whole = Noise {
            state: random.state,
            step: power_of_two(scale - 31),
            width: 128,
            reach: rows * 128,
        };
        match kind {
            Kind::Noise => whole,
            Kind::Subnormal => Noise {
                step: power_of_two(-1074),
                ..whole
            },
            Kind::LowBands => Noise { width: 12, ..whole },
            Kind::FirstRow => Noise {
                reach: 128,
                ..whole
            },
            _ => Noise { reach: 0, ..whole },
        }
    }

    /// That many numbers: the noise, and +0 where there is none.
    pub fn numbers(&self, random: &mut Random, count: usize) -> Vec<f64> {
        let mut sample = |place: usize| match place < self.reach && place % 128 < self.width {
            true => number(random, self.step),
            false => 0.0,
        };
        (0..count).map(&mut sample).collect()
    }
}

/// `rows` rows of 64 complex numbers, none above 2^scale in magnitude but for Special, and the noise under them.
pub fn fill(random: &mut Random, kind: Kind, scale: i32, rows: usize) -> (Vec<f64>, Noise) {
    let noise = Noise::of(random, kind, scale, rows);
    let mut input = noise.numbers(random, rows * 128);
    match kind {
        Kind::Impulse => {
            let place = (random.below(rows) * 64 + random.below(64)) * 2;
            input[place] = number(random, noise.step);
            input[place + 1] = number(random, noise.step);
        }
        Kind::RowScales => row_scales(random, scale, &mut input),
        Kind::Special => input
            .iter_mut()
            .for_each(|place| *place = special(random, noise.step)),
        _ => {}
    }
    (input, noise)
}

/// Each row at a scale of its own, up to 50 powers of two below the given one.
fn row_scales(random: &mut Random, scale: i32, input: &mut [f64]) {
    for row in input.chunks_exact_mut(128) {
        let own = (scale - random.below(51) as i32).max(FAINTEST);
        let step = power_of_two(own - 31);
        row.iter_mut()
            .for_each(|place| *place = number(random, step));
    }
}

/// The numbers that the rule on samples names, among ordinary ones.
fn special(random: &mut Random, step: f64) -> f64 {
    match random.below(8) {
        0 => 0.0,
        1 => -0.0,
        2 => number(random, power_of_two(-1074)),
        3 => LARGEST_SAMPLE,
        4 => -LARGEST_SAMPLE,
        _ => number(random, step),
    }
}
