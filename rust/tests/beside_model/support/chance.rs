//! Chance that can be had again: a seed that is printed, and that JUSTRAVE_SEED sets.

use std::env;

/// SplitMix64.
pub struct Chance(u64);

impl Chance {
    /// The seed is JUSTRAVE_SEED or a fixed number. The test's name goes in, so that no two tests see the same numbers.
    pub fn of(test: &str) -> Chance {
        let seed = variable("JUSTRAVE_SEED").unwrap_or(20_240_229);
        println!("{test}: JUSTRAVE_SEED={seed}");
        Chance(test.bytes().fold(seed, |mixed, byte| mixed.wrapping_mul(0x100_0000_01B3) ^ u64::from(byte)))
    }

    pub fn next(&mut self) -> u64 {
        self.0 = self.0.wrapping_add(0x9E37_79B9_7F4A_7C15);
        let mixed = (self.0 ^ (self.0 >> 30)).wrapping_mul(0xBF58_476D_1CE4_E5B9);
        let mixed = (mixed ^ (mixed >> 27)).wrapping_mul(0x94D0_49BB_1331_11EB);
        mixed ^ (mixed >> 31)
    }

    /// From low to high, both included.
    pub fn within(&mut self, low: u64, high: u64) -> u64 {
        match (high - low).checked_add(1) {
            Some(span) => low + self.next() % span,
            None => self.next(),
        }
    }

    /// Below a length.
    pub fn index(&mut self, length: usize) -> usize {
        self.within(0, length as u64 - 1) as usize
    }

    /// Once in so many times.
    pub fn one_in(&mut self, times: u64) -> bool {
        self.within(1, times) == 1
    }

    pub fn pick<T: Copy>(&mut self, choices: &[T]) -> T {
        choices[self.index(choices.len())]
    }

    /// Any order of the items, each as likely as the others.
    pub fn shuffle<T>(&mut self, items: &mut [T]) {
        for length in (2..=items.len()).rev() {
            items.swap(length - 1, self.index(length));
        }
    }

    pub fn bytes(&mut self, length: usize) -> Vec<u8> {
        (0..length).map(|_| self.next() as u8).collect()
    }
}

/// How often a test goes round: its own number, times JUSTRAVE_ROUNDS.
pub fn rounds(usual: u64) -> u64 {
    usual * variable("JUSTRAVE_ROUNDS").unwrap_or(1)
}

fn variable(name: &str) -> Option<u64> {
    let text = env::var(name).ok()?;
    Some(text.parse().unwrap_or_else(|_| panic!("{name} is not a number: {text}")))
}
