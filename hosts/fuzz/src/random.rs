//! Random numbers that a seed determines (splitmix64), and the shapes of numbers that find faults.

use reference::{CODE_BASE, WINDOW_BASE};

pub struct Random(u64);

impl Random {
    /// The numbers of one case. Every case has its own, so that it can be repeated alone.
    pub fn of_case(seed: u64, case: u64) -> Random {
        let mut random = Random(seed);
        let mixed = random.next();
        random.0 = mixed ^ case.wrapping_mul(0xD6E8_FEB8_6659_FD93);
        random.next();
        random
    }

    pub fn next(&mut self) -> u64 {
        self.0 = self.0.wrapping_add(0x9E37_79B9_7F4A_7C15);
        let mut mixed = self.0;
        mixed = (mixed ^ mixed >> 30).wrapping_mul(0xBF58_476D_1CE4_E5B9);
        mixed = (mixed ^ mixed >> 27).wrapping_mul(0x94D0_49BB_1331_11EB);
        mixed ^ mixed >> 31
    }

    /// A number below `limit`, which is not 0. That the small ones come a little more often is no matter here.
    pub fn below(&mut self, limit: u64) -> u64 {
        self.next() % limit
    }

    pub fn index(&mut self, limit: usize) -> usize {
        self.below(limit as u64) as usize
    }

    /// True that many times of a thousand.
    pub fn chance(&mut self, of_thousand: u64) -> bool {
        self.below(1000) < of_thousand
    }

    pub fn pick<T: Copy>(&mut self, list: &[T]) -> T {
        list[self.index(list.len())]
    }

    /// A place in a list of weights, each as often as its weight says.
    pub fn weighted(&mut self, weights: &[u64]) -> usize {
        let mut left = self.below(weights.iter().sum());
        for (place, weight) in weights.iter().enumerate() {
            if left < *weight {
                return place;
            }
            left -= weight;
        }
        0
    }

    pub fn bytes(&mut self, length: usize) -> Vec<u8> {
        let mut bytes = Vec::with_capacity(length + 8);
        while bytes.len() < length {
            bytes.extend_from_slice(&self.next().to_le_bytes());
        }
        bytes.truncate(length);
        bytes
    }

    /// A number within a few of `center`.
    pub fn near(&mut self, center: u64) -> u64 {
        center.wrapping_add(self.below(19)).wrapping_sub(9)
    }

    /// A register's value: limits, small numbers, addresses, and anything.
    pub fn value(&mut self, window_length: u64, code_length: u64) -> u64 {
        match self.below(12) {
            0 => self.pick(&LIMITS),
            1 => {
                let limit = self.pick(&LIMITS);
                self.near(limit)
            }
            2 => self.near(0),
            3 => self.below(300),
            4 => self.near(WINDOW_BASE),
            5 => self.near(WINDOW_BASE + window_length),
            6 => CODE_BASE + 4 * self.below(code_length / 4 + 2),
            7 => self.next() as i32 as u64,
            8 => 1 << self.below(64),
            9 => u64::MAX >> self.below(64),
            _ => self.next(),
        }
    }
}

/// Where signs, words and sums turn.
const LIMITS: [u64; 12] = [
    0,
    1,
    u64::MAX,
    1 << 63,
    (1 << 63) - 1,
    1 << 31,
    (1 << 31) - 1,
    0xFFFF_FFFF,
    0xFFFF_FFFF_8000_0000,
    1 << 32,
    0x3FFF_FFF8,
    0x8000_0000_8000_0000,
];
