//! A seeded generator of random numbers (splitmix64).

pub struct Random {
    state: u64,
}

const STRIDE: u64 = 0x9E37_79B9_7F4A_7C15;

impl Random {
    /// The numbers of one case. A case depends on nothing but these three.
    pub fn of_case(seed: u64, part: u64, index: u64) -> Random {
        Random { state: mix(mix(mix(seed) ^ part) ^ index) }
    }

    pub fn bits(&mut self) -> u64 {
        self.state = self.state.wrapping_add(STRIDE);
        mix(self.state)
    }

    /// 0 to `n` - 1.
    pub fn below(&mut self, n: u64) -> u64 {
        ((u128::from(self.bits()) * u128::from(n)) >> 64) as u64
    }

    /// 0 to `n` - 1, as a byte.
    pub fn byte(&mut self, n: u64) -> u8 {
        self.below(n) as u8
    }

    /// 0 to `n` - 1, as a word.
    pub fn word(&mut self, n: u64) -> u16 {
        self.below(n) as u16
    }

    /// True once in `n` times.
    pub fn once_in(&mut self, n: u64) -> bool {
        self.below(n) == 0
    }

    pub fn pick<T: Copy>(&mut self, from: &[T]) -> T {
        from[self.below(from.len() as u64) as usize]
    }
}

fn mix(bits: u64) -> u64 {
    let bits = (bits ^ bits >> 30).wrapping_mul(0xBF58_476D_1CE4_E5B9);
    let bits = (bits ^ bits >> 27).wrapping_mul(0x94D0_49BB_1331_11EB);
    bits ^ bits >> 31
}
