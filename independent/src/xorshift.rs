//! Repeatable pseudo-random numbers and blocks: the generator xorshift64* (Vigna).
//!
//! For each number, on a state x of 64 bits:
//! x ^= x >> 12, x ^= x << 25, x ^= x >> 27, then the number is the 64 low bits of
//! x * 2685821657736338717; a bit is its highest. The state starts as the seed; as 0 would
//! stay 0 for ever, seed 0 starts as 11400714819323198485 (hex 9E3779B97F4A7C15).

const MULTIPLIER: u64 = 2_685_821_657_736_338_717;
const IN_PLACE_OF_ZERO: u64 = 0x9E37_79B9_7F4A_7C15;

/// The generator's state.
pub struct Generator(u64);

impl Generator {
    pub fn new(seed: u64) -> Generator {
        Generator(if seed == 0 { IN_PLACE_OF_ZERO } else { seed })
    }

    /// The next 64 bits.
    pub fn number(&mut self) -> u64 {
        self.0 ^= self.0 >> 12;
        self.0 ^= self.0 << 25;
        self.0 ^= self.0 >> 27;
        self.0.wrapping_mul(MULTIPLIER)
    }

    /// A number from 0 to `bound` - 1.
    pub fn below(&mut self, bound: usize) -> usize {
        ((u128::from(self.number()) * bound as u128) >> 64) as usize
    }

    /// One of several.
    pub fn choose<T: Copy>(&mut self, several: &[T]) -> T {
        several[self.below(several.len())]
    }
}

/// A block of `length` bits from a seed.
pub fn block(length: usize, seed: u64) -> Vec<u8> {
    let mut generator = Generator::new(seed);
    (0..length).map(|_| (generator.number() >> 63) as u8).collect()
}
