//! The generator's only source of chance: a linear congruence modulo 2^32 held in 64 bits.

pub struct Random {
    pub state: u64,
}

impl Random {
    /// Neighbouring seeds part within a few steps, so the first eight are thrown away.
    pub fn new(seed: u64) -> Self {
        let mut random = Random {
            state: seed % 4294967296,
        };
        for _ in 0..8 {
            random.next();
        }
        random
    }

    /// x' = (x * 1664525 + 1013904223) mod 2^32.
    pub fn next(&mut self) -> u64 {
        self.state = (self.state * 1664525 + 1013904223) % 4294967296;
        self.state
    }

    /// A number below `count`, from the upper half, since the low bits repeat soon.
    pub fn below(&mut self, count: usize) -> usize {
        (self.next() / 65536) as usize % count
    }

    pub fn one_in(&mut self, count: usize) -> bool {
        self.below(count) == 0
    }

    pub fn pick<T: Copy>(&mut self, choices: &[T]) -> T {
        choices[self.below(choices.len())]
    }
}
