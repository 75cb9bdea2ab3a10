//! A small random number generator (splitmix64).
//! The same seed gives the same numbers on every machine.

pub struct Random(u64);

impl Random {
    pub fn new(seed: u64) -> Random {
        Random(seed)
    }

    /// 64 random bits.
    pub fn bits(&mut self) -> u64 {
        self.0 = self.0.wrapping_add(0x9E37_79B9_7F4A_7C15);
        let mut z = self.0;
        z = (z ^ (z >> 30)).wrapping_mul(0xBF58_476D_1CE4_E5B9);
        z = (z ^ (z >> 27)).wrapping_mul(0x94D0_49BB_1331_11EB);
        z ^ (z >> 31)
    }

    /// From 0 to just below the bound.
    pub fn below(&mut self, bound: usize) -> usize {
        ((u128::from(self.bits()) * bound as u128) >> 64) as usize
    }

    /// From the least to the greatest, both counted.
    pub fn range(&mut self, least: i64, greatest: i64) -> i64 {
        debug_assert!(least <= greatest);
        let span = (greatest - least) as u64 as u128 + 1;
        least + ((u128::from(self.bits()) * span) >> 64) as i64
    }

    pub fn int(&mut self, least: i32, greatest: i32) -> i32 {
        self.range(i64::from(least), i64::from(greatest)) as i32
    }

    /// True in so many of a hundred cases.
    pub fn percent(&mut self, percent: usize) -> bool {
        self.below(100) < percent
    }

    pub fn pick<T: Copy>(&mut self, items: &[T]) -> T {
        items[self.below(items.len())]
    }

    /// Between two positive bounds, each order of magnitude alike.
    pub fn spread(&mut self, least: i64, greatest: i64) -> i64 {
        let unit = (self.bits() >> 11) as f64 / (1_u64 << 53) as f64;
        let (low, high) = ((least as f64).ln(), (greatest as f64 + 1.0).ln());
        ((low + unit * (high - low)).exp() as i64).clamp(least, greatest)
    }

    /// The same with either sign.
    pub fn signed_spread(&mut self, least: i64, greatest: i64) -> i64 {
        let size = self.spread(least, greatest);
        if self.percent(50) {
            size
        } else {
            -size
        }
    }

    pub fn fill(&mut self, bytes: &mut [u8]) {
        for chunk in bytes.chunks_mut(8) {
            let random = self.bits().to_le_bytes();
            chunk.copy_from_slice(&random[..chunk.len()]);
        }
    }
}
