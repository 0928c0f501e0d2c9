//! A small generator of pseudo-random numbers (splitmix64).

/// The state of the generator.
pub struct Prng(u64);

impl Prng {
    /// Starts a generator from a seed.
    pub fn new(seed: u64) -> Prng {
        Prng(seed)
    }

    /// Gives the next 64 bits.
    pub fn next(&mut self) -> u64 {
        self.0 = self.0.wrapping_add(0x9E37_79B9_7F4A_7C15);
        let mut z = self.0;
        z = (z ^ (z >> 30)).wrapping_mul(0xBF58_476D_1CE4_E5B9);
        z = (z ^ (z >> 27)).wrapping_mul(0x94D0_49BB_1331_11EB);
        z ^ (z >> 31)
    }

    /// Gives a number below the bound, which is at least 1.
    pub fn below(&mut self, bound: u32) -> u32 {
        (self.next() % u64::from(bound)) as u32
    }

    /// Gives a place below the bound, which is at least 1.
    pub fn index(&mut self, bound: usize) -> usize {
        (self.next() % bound as u64) as usize
    }

    /// Gives any 32-bit number.
    pub fn word(&mut self) -> u32 {
        self.next() as u32
    }

    /// Gives any byte.
    pub fn byte(&mut self) -> u8 {
        self.next() as u8
    }

    /// Gives true in so many of a hundred cases.
    pub fn percent(&mut self, share: u32) -> bool {
        self.below(100) < share
    }

    /// Picks one of the choices, which are not empty.
    pub fn pick<T: Copy>(&mut self, choices: &[T]) -> T {
        choices[self.index(choices.len())]
    }

    /// Gives a 32-bit number that is often near one of the ends of its range.
    pub fn odd_word(&mut self) -> u32 {
        match self.below(4) {
            0 => self.below(4),
            1 => u32::MAX - self.below(4),
            2 => self.below(40_000),
            _ => self.word(),
        }
    }
}
