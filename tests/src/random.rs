//! Seeded numbers, the same on every machine (splitmix64).

use crate::sizes::Set;

pub struct Random(u64);

impl Random {
    pub fn new(seed: u64) -> Self {
        Random(seed)
    }

    /// A sequence of its own for one case of a run, so that a case can be repeated alone.
    pub fn case(seed: u64, number: u64) -> Self {
        let mut random = Random(seed ^ number.wrapping_mul(0xD1B5_4A32_D192_ED03));
        random.step();
        random
    }

    fn step(&mut self) -> u64 {
        self.0 = self.0.wrapping_add(0x9E37_79B9_7F4A_7C15);
        let mut z = self.0;
        z = (z ^ z >> 30).wrapping_mul(0xBF58_476D_1CE4_E5B9);
        z = (z ^ z >> 27).wrapping_mul(0x94D0_49BB_1331_11EB);
        z ^ z >> 31
    }

    pub fn word(&mut self) -> u32 {
        (self.step() >> 32) as u32
    }

    /// A set of any filters.
    pub fn set(&mut self) -> Set {
        self.step()
    }

    pub fn byte(&mut self) -> u8 {
        (self.step() >> 56) as u8
    }

    /// A number below n, which is not 0. The slight favour for small ones does no harm here.
    pub fn below(&mut self, n: usize) -> usize {
        ((self.step() >> 32) as usize) % n
    }

    /// A number from low to high, both allowed.
    pub fn between(&mut self, low: usize, high: usize) -> usize {
        low + self.below(high - low + 1)
    }

    /// True once in n times.
    pub fn once_in(&mut self, n: usize) -> bool {
        self.below(n) == 0
    }

    pub fn pick<T: Copy>(&mut self, items: &[T]) -> T {
        items[self.below(items.len())]
    }
}
