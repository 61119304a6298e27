//! The numbers that are tried: edges, and random ones of mixed kinds.

/// splitmix64
pub struct Random(pub u64);

impl Random {
    pub fn next(&mut self) -> u64 {
        self.0 = self.0.wrapping_add(0x9e37_79b9_7f4a_7c15);
        let mut z = self.0;
        z = (z ^ (z >> 30)).wrapping_mul(0xbf58_476d_1ce4_e5b9);
        z = (z ^ (z >> 27)).wrapping_mul(0x94d0_49bb_1331_11eb);
        z ^ (z >> 31)
    }

    /// Any number, a small one, or one near the modulus, a power of two or a multiple of the
    /// modulus: a wrong answer is likely at these, and uniform numbers would hardly meet them.
    pub fn mixed(&mut self, modulus: u64) -> u64 {
        let any = self.next();
        match self.next() % 5 {
            0 => any,
            1 => any % 256,
            2 => self.near(modulus),
            3 => self.near(1 << (any % 64)),
            _ => self.near(any - any.checked_rem(modulus).unwrap_or(0)),
        }
    }

    /// At most 2 away, round the ends of the range.
    pub fn near(&mut self, centre: u64) -> u64 {
        centre.wrapping_add(self.next() % 5).wrapping_sub(2)
    }
}

/// 0, 1, 2, 2^31, 2^32, 2^63, 2^64 and what is at most 2 away from one of them, in order.
pub fn edges() -> Vec<u64> {
    around(&[0, 1, 2, 1 << 31, 1 << 32, 1 << 63], 2)
}

/// What is at most so far away from one of the centres, round the ends of the range, in order.
pub fn around(centres: &[u64], reach: u64) -> Vec<u64> {
    let mut numbers: Vec<u64> = centres
        .iter()
        .flat_map(|centre| {
            (0..=2 * reach).map(move |step| centre.wrapping_add(step).wrapping_sub(reach))
        })
        .collect();
    numbers.sort();
    numbers.dedup();
    numbers
}
