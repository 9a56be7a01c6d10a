// Numbers at random from a fixed seed (splitmix64): over a whole range, small, and at the range's edges.
pub struct Random(pub u64);

impl Random {
    fn next(&mut self) -> u64 {
        self.0 = self.0.wrapping_add(0x9e37_79b9_7f4a_7c15);
        let z = (self.0 ^ (self.0 >> 30)).wrapping_mul(0xbf58_476d_1ce4_e5b9);
        let z = (z ^ (z >> 27)).wrapping_mul(0x94d0_49bb_1331_11eb);
        z ^ (z >> 31)
    }

    // From low to high, both included; their difference is below 2^64.
    pub fn between(&mut self, low: i128, high: i128) -> i128 {
        let wide = u128::from(self.next()) << 64 | u128::from(self.next());
        low + (wide % (high - low + 1) as u128) as i128
    }

    pub fn one_in(&mut self, n: i128) -> bool {
        self.between(1, n) == 1
    }

    pub fn of<T: Copy>(&mut self, list: &[T]) -> T {
        list[self.between(0, list.len() as i128 - 1) as usize]
    }

    // Mostly from low to high, at times near an edge or near nought, and at times anywhere in the type's range.
    pub fn near(&mut self, low: i128, high: i128, type_low: i128, type_high: i128) -> i128 {
        let near = match self.between(0, 19) {
            0 => low + self.between(-1, 1),
            1 => high + self.between(-1, 1),
            2 | 3 => self.between(-20, 20),
            4 => self.between(type_low, type_high),
            _ => self.between(low, high),
        };
        near.clamp(type_low, type_high)
    }
}
