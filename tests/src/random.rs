//! Random numbers that come out the same everywhere (splitmix64).

pub struct Random(u64);

impl Random {
    /// The numbers of one case of one seed, so that a case can be run again alone.
    pub fn new(seed: u64, case: u64) -> Random {
        let mut random = Random(seed ^ 0x5DEE_CE66_D1CE_4E5B);
        let start = random.next() ^ case.wrapping_mul(0xD6E8_FEB8_6659_FD93);
        Random(start)
    }

    pub fn next(&mut self) -> u64 {
        self.0 = self.0.wrapping_add(0x9E37_79B9_7F4A_7C15);
        let mut z = self.0;
        z = (z ^ (z >> 30)).wrapping_mul(0xBF58_476D_1CE4_E5B9);
        z = (z ^ (z >> 27)).wrapping_mul(0x94D0_49BB_1331_11EB);
        z ^ (z >> 31)
    }

    /// A number below n, which is above 0.
    pub fn below(&mut self, n: u64) -> u64 {
        ((u128::from(self.next()) * u128::from(n)) >> 64) as u64
    }

    /// A number from `least` to `most`, both included.
    pub fn between(&mut self, least: u64, most: u64) -> u64 {
        match (most - least).checked_add(1) {
            Some(n) => least + self.below(n),
            None => self.next(),
        }
    }

    /// True once in n times.
    pub fn one_in(&mut self, n: u64) -> bool {
        self.below(n) == 0
    }

    pub fn pick<T: Copy>(&mut self, from: &[T]) -> T {
        from[self.below(from.len() as u64) as usize]
    }

    /// An index of a list of this length.
    pub fn index(&mut self, length: usize) -> usize {
        self.below(length as u64) as usize
    }

    /// A number from `least` to `most` whose magnitude is spread evenly: small ones are as
    /// likely as large ones.
    pub fn spread(&mut self, least: u64, most: u64) -> u64 {
        let bits = self.below(u64::from(64 - (most - least).leading_zeros()) + 1);
        let top = if bits >= 64 { u64::MAX } else { (1u64 << bits) - 1 };
        least + self.between(0, top.min(most - least))
    }

    /// A word of any kind: small, large, a boundary, or a power of two and its neighbours.
    pub fn word(&mut self) -> u64 {
        match self.below(6) {
            0 => self.below(4),
            1 => self.spread(0, u64::MAX),
            2 => u64::MAX - self.below(4),
            3 => (1u64 << self.below(64)).wrapping_add(self.below(3)).wrapping_sub(1),
            4 => {
                let edge = self.pick(&[1, 16, 32, 128, 255, 1_000_000, 160_000_000, 1_000_000_000_000]);
                edge + self.below(4) - 1
            }
            _ => self.next(),
        }
    }
}
