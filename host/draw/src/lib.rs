//! Numbers drawn from a seed: the same seed gives the same numbers on every machine.

pub struct Draw(u64);

impl Draw {
    pub const fn new(seed: u64) -> Self {
        Self(seed)
    }

    /// The next 64 bits (splitmix64).
    pub const fn bits(&mut self) -> u64 {
        self.0 = self.0.wrapping_add(0x9E37_79B9_7F4A_7C15);
        let mut z = self.0;
        z = (z ^ (z >> 30)).wrapping_mul(0xBF58_476D_1CE4_E5B9);
        z = (z ^ (z >> 27)).wrapping_mul(0x94D0_49BB_1331_11EB);
        z ^ (z >> 31)
    }

    /// A number from `low` to `high`, both included.
    pub fn between(&mut self, low: i32, high: i32) -> i32 {
        let span = (i64::from(high) - i64::from(low) + 1).unsigned_abs();
        let offset = (self.bits() >> 16) % span;
        (i64::from(low) + offset as i64) as i32
    }

    pub fn any_i32(&mut self) -> i32 {
        (self.bits() >> 32) as u32 as i32
    }

    pub fn pick<T: Copy>(&mut self, list: &[T]) -> T {
        list[self.bits() as usize % list.len()]
    }

    pub fn bytes(&mut self, count: usize) -> Vec<u8> {
        (0..count).map(|_| (self.bits() >> 40) as u8).collect()
    }

    /// True once in `times`, over many draws.
    pub fn once_in(&mut self, times: i32) -> bool {
        self.between(1, times) == 1
    }
}
