//! Numbers that follow from a seed (SplitMix64), so that each case can be made again.
//!
//! They are a package of their own because the benchmark uses them too and links other libraries
//! than the harness.

#![forbid(unsafe_code)]
#![warn(missing_docs)]

/// The state of the generator.
#[derive(Clone, Debug)]
pub struct Seed(u64);

impl Seed {
    /// Starts a generator.
    pub fn new(seed: u64) -> Seed {
        Seed(seed)
    }

    /// Starts a generator for the n-th case of a seed.
    pub fn of_case(seed: u64, n: u64) -> Seed {
        let mut mixed = Seed(seed ^ n.wrapping_mul(0xD1B5_4A32_D192_ED03));
        Seed(mixed.draw())
    }

    /// Gives the next 64 bits.
    pub fn draw(&mut self) -> u64 {
        self.0 = self.0.wrapping_add(0x9E37_79B9_7F4A_7C15);
        let mut z = self.0;
        z = (z ^ (z >> 30)).wrapping_mul(0xBF58_476D_1CE4_E5B9);
        z = (z ^ (z >> 27)).wrapping_mul(0x94D0_49BB_1331_11EB);
        z ^ (z >> 31)
    }

    /// Gives a number below the bound, which is at least 1.
    pub fn below(&mut self, bound: u32) -> u32 {
        (self.draw() % u64::from(bound)) as u32
    }

    /// Gives a number from the first to the last, both included.
    pub fn between(&mut self, first: u32, last: u32) -> u32 {
        first + self.below(last - first + 1)
    }

    /// Gives a place below the bound, which is at least 1.
    pub fn place(&mut self, bound: usize) -> usize {
        (self.draw() % bound as u64) as usize
    }

    /// Gives any 32-bit number.
    pub fn word(&mut self) -> u32 {
        self.draw() as u32
    }

    /// Gives any byte.
    pub fn byte(&mut self) -> u8 {
        self.draw() as u8
    }

    /// Gives true in so many of a hundred cases.
    pub fn percent(&mut self, share: u32) -> bool {
        self.below(100) < share
    }

    /// Picks one of the choices, or none if there are none.
    pub fn any_of<T: Copy>(&mut self, choices: &[T]) -> Option<T> {
        if choices.is_empty() {
            return None;
        }
        Some(choices[self.place(choices.len())])
    }

    /// Picks one of the choices, which are not empty.
    pub fn pick<T: Copy>(&mut self, choices: &[T]) -> T {
        choices[self.place(choices.len())]
    }

    /// Brings the items into another order.
    pub fn shuffle<T>(&mut self, items: &mut [T]) {
        for last in (1..items.len()).rev() {
            items.swap(last, self.place(last + 1));
        }
    }

    /// Picks a place by weights, of which at least one is not 0.
    pub fn weighted(&mut self, weights: &[u32]) -> usize {
        let mut left = self.below(weights.iter().sum());
        for (place, weight) in weights.iter().enumerate() {
            if left < *weight {
                return place;
            }
            left -= weight;
        }
        weights.len() - 1
    }

    /// Gives a 32-bit number that is often near an end of its range, near a power of two or small.
    pub fn odd_word(&mut self) -> u32 {
        match self.below(5) {
            0 => self.below(16),
            1 => u32::MAX - self.below(16),
            2 => (1 << self.below(32)) - self.below(2),
            3 => self.below(40_000),
            _ => self.word(),
        }
    }
}
