//! Numbers that look random, the same in every run.

/// A xorshift generator; the start is fixed by who makes it, and is not 0.
pub struct Random(pub u64);

impl Random {
    /// The generator of one of many inputs of a kind, so that each can be made without those before it.
    pub fn of(kind: u8, number: usize) -> Random {
        let mut mixed =
            ((number as u64) << 8 | u64::from(kind)).wrapping_add(0x9e37_79b9_7f4a_7c15);
        for shift in [30, 27, 31] {
            mixed = (mixed ^ mixed >> shift).wrapping_mul(0xbf58_476d_1ce4_e5b9);
        }
        Random(mixed | 1)
    }

    pub fn number(&mut self) -> u64 {
        self.0 ^= self.0 << 13;
        self.0 ^= self.0 >> 7;
        self.0 ^= self.0 << 17;
        self.0
    }

    pub fn byte(&mut self) -> u8 {
        (self.number() >> 16) as u8
    }

    pub fn below(&mut self, n: usize) -> usize {
        (self.number() >> 16) as usize % n
    }

    /// From `least` to `most`, both among them.
    pub fn within(&mut self, least: usize, most: usize) -> usize {
        least + self.below(most - least + 1)
    }

    /// Once in so many times.
    pub fn once_in(&mut self, times: usize) -> bool {
        self.below(times) == 0
    }

    pub fn bytes(&mut self, count: usize) -> Vec<u8> {
        (0..count).map(|_| self.byte()).collect()
    }
}
