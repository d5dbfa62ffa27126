//! A seeded generator (SplitMix64): the same seed makes the same run.

pub struct Chance(u64);

/// Numbers at and round the limits of document 01.
const ENDS: [u64; 24] = [
    0,
    1,
    2,
    3,
    7,
    8,
    9,
    16,
    17,
    31,
    32,
    33,
    64,
    127,
    128,
    255,
    256,
    0x7FFF,
    0x8000,
    0xFFFF,
    0x1_0000,
    u32::MAX as u64,
    1 << 63,
    u64::MAX,
];

impl Chance {
    pub fn new(seed: u64) -> Self {
        Chance(seed)
    }

    pub fn number(&mut self) -> u64 {
        self.0 = self.0.wrapping_add(0x9E37_79B9_7F4A_7C15);
        let a = (self.0 ^ (self.0 >> 30)).wrapping_mul(0xBF58_476D_1CE4_E5B9);
        let b = (a ^ (a >> 27)).wrapping_mul(0x94D0_49BB_1331_11EB);
        b ^ (b >> 31)
    }

    /// Below `most`, which is over 0.
    pub fn below(&mut self, most: usize) -> usize {
        (self.number() % most as u64) as usize
    }

    /// Once in `of` times.
    pub fn once_in(&mut self, of: usize) -> bool {
        self.below(of) == 0
    }

    pub fn byte(&mut self) -> u8 {
        self.number() as u8
    }

    /// A limit or its neighbour, any number, or a small one.
    pub fn extreme(&mut self) -> u64 {
        match self.below(4) {
            0 => self.number(),
            1 => self.below(40) as u64,
            _ => ENDS[self.below(ENDS.len())],
        }
    }

    pub fn bytes(&mut self, len: usize) -> Vec<u8> {
        (0..len).map(|_| self.byte()).collect()
    }

    pub fn of<T: Copy>(&mut self, all: &[T]) -> T {
        all[self.below(all.len())]
    }
}
