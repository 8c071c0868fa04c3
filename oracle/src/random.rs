//! Numbers that look random and come again with the same seed (SplitMix64).

pub struct Random(u64);

impl Random {
    /// The stream of one case of one family.
    pub fn of(seed: u64, family: &str, number: u64) -> Random {
        let mut r = Random(seed);
        for byte in family.bytes() {
            r.0 = r.next() ^ u64::from(byte);
        }
        r.0 = r.next() ^ number;
        r
    }

    pub fn next(&mut self) -> u64 {
        self.0 = self.0.wrapping_add(0x9E37_79B9_7F4A_7C15);
        let x = (self.0 ^ (self.0 >> 30)).wrapping_mul(0xBF58_476D_1CE4_E5B9);
        let x = (x ^ (x >> 27)).wrapping_mul(0x94D0_49BB_1331_11EB);
        x ^ (x >> 31)
    }

    /// From 0 to n - 1. The slight bias does not matter here.
    pub fn below(&mut self, n: usize) -> usize {
        (self.next() % n as u64) as usize
    }

    /// From low to high, both taken.
    pub fn within(&mut self, low: usize, high: usize) -> usize {
        low + self.below(high - low + 1)
    }

    /// True once in n times.
    pub fn once_in(&mut self, n: usize) -> bool {
        self.below(n) == 0
    }

    pub fn pick<T: Copy>(&mut self, list: &[T]) -> T {
        list[self.below(list.len())]
    }

    /// As many random bits as it likes, up to this many.
    pub fn bits(&mut self, most: u32) -> u64 {
        let count = self.within(1, most as usize) as u32;
        self.next() >> (64 - count)
    }
}
