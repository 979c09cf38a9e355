//! A repeatable stream of random numbers (splitmix64).

pub struct Random(pub u64);

impl Random {
    pub fn word(&mut self) -> u32 {
        self.0 = self.0.wrapping_add(0x9e37_79b9_7f4a_7c15);
        let mut z = self.0;
        z = (z ^ (z >> 30)).wrapping_mul(0xbf58_476d_1ce4_e5b9);
        z = (z ^ (z >> 27)).wrapping_mul(0x94d0_49bb_1331_11eb);
        ((z ^ (z >> 31)) >> 32) as u32
    }

    pub fn below(&mut self, n: u32) -> u32 {
        (u64::from(self.word()) * u64::from(n) >> 32) as u32
    }

    pub fn percent(&mut self, percent: u32) -> bool {
        self.below(100) < percent
    }
}
