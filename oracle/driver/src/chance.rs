//! Numbers by chance from a seed, the same on every machine (splitmix64).

pub struct Chance(u64);

impl Chance {
    pub fn new(seed: u64) -> Self {
        Chance(seed)
    }

    pub fn word(&mut self) -> u64 {
        self.0 = self.0.wrapping_add(0x9E37_79B9_7F4A_7C15);
        let mut z = self.0;
        z = (z ^ (z >> 30)).wrapping_mul(0xBF58_476D_1CE4_E5B9);
        z = (z ^ (z >> 27)).wrapping_mul(0x94D0_49BB_1331_11EB);
        z ^ (z >> 31)
    }

    /// A number below `bound`, which isn't 0.
    pub fn below(&mut self, bound: u64) -> u64 {
        self.word() % bound
    }

    pub fn within(&mut self, least: u64, greatest: u64) -> u64 {
        least + self.below(greatest - least + 1)
    }

    /// Holds in one case of `cases`.
    pub fn one_in(&mut self, cases: u64) -> bool {
        self.below(cases) == 0
    }

    pub fn pick<T: Copy>(&mut self, from: &[T]) -> T {
        from[self.below(from.len() as u64) as usize]
    }

    pub fn byte(&mut self) -> u8 {
        self.word() as u8
    }

    pub fn bytes(&mut self, length: u64) -> Vec<u8> {
        (0..length).map(|_| self.byte()).collect()
    }

    /// A sequence number, often one at which a comparison turns.
    pub fn sequence(&mut self) -> u16 {
        match self.below(4) {
            0 => self.word() as u16,
            1 => self.below(40) as u16,
            2 => (65_536 - self.within(1, 40)) as u16,
            _ => (32_768 + self.below(40) - 20) as u16,
        }
    }

    /// A sequence number at most 20 from `near`, round the end.
    pub fn near(&mut self, near: u16) -> u16 {
        near.wrapping_add(self.below(41) as u16).wrapping_sub(20)
    }
}
