//! Numbers at random, the same for the same seed on every machine.

/// A source of numbers (SplitMix64).
pub struct Random(u64);

impl Random {
    /// The source of one script: every script of a seed has its own, so that any one of them can be made again alone.
    pub fn new(seed: u64, script: u64) -> Self {
        let mut first = Random(seed);
        Random(first.next() ^ script.wrapping_mul(0xD134_2543_DE82_EF95))
    }

    fn next(&mut self) -> u64 {
        self.0 = self.0.wrapping_add(0x9E37_79B9_7F4A_7C15);
        let mut z = self.0;
        z = (z ^ (z >> 30)).wrapping_mul(0xBF58_476D_1CE4_E5B9);
        z = (z ^ (z >> 27)).wrapping_mul(0x94D0_49BB_1331_11EB);
        z ^ (z >> 31)
    }

    /// A number below `limit`; 0 if that is 0.
    pub fn below(&mut self, limit: usize) -> usize {
        ((u128::from(self.next()) * limit as u128) >> 64) as usize
    }

    /// A number from `low` to `high`.
    pub fn between(&mut self, low: usize, high: usize) -> usize {
        low + self.below(high - low + 1)
    }

    /// True in one case of `cases`.
    pub fn one_in(&mut self, cases: usize) -> bool {
        self.below(cases) == 0
    }

    /// A byte.
    pub fn byte(&mut self) -> u8 {
        self.below(256) as u8
    }

    /// One of some things.
    pub fn pick<T: Copy>(&mut self, things: &[T]) -> T {
        things[self.below(things.len())]
    }

    /// Brings things into another order.
    pub fn shuffle<T>(&mut self, things: &mut [T]) {
        for i in (1..things.len()).rev() {
            things.swap(i, self.below(i + 1));
        }
    }

    /// A value: mostly small, now and then one whose sums and products leave 32 bits.
    pub fn value(&mut self) -> i32 {
        match self.below(10) {
            0 => self.pick(&[i32::MAX, i32::MIN, i32::MAX - 1, i32::MIN + 1, 65_536, 46_341, -46_341]),
            1 => self.next() as i32,
            _ => self.below(9) as i32 - 3,
        }
    }
}
