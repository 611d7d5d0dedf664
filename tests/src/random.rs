//! A small generator of pseudo-random numbers (splitmix64): the same seed gives the same numbers everywhere.

/// The state of a generator.
pub struct Random {
    state: u64,
}

impl Random {
    /// A generator that starts from the seed.
    pub fn new(seed: u64) -> Random {
        Random { state: seed }
    }

    /// The generator of one case: it depends on the seed and the case's number only.
    pub fn for_case(seed: u64, case: u64) -> Random {
        let mut first = Random::new(seed ^ case.wrapping_mul(0x9E37_79B9_7F4A_7C15));
        let state = first.bits();
        Random { state: state ^ case }
    }

    /// The next 64 random bits.
    pub fn bits(&mut self) -> u64 {
        self.state = self.state.wrapping_add(0x9E37_79B9_7F4A_7C15);
        let mut z = self.state;
        z = (z ^ (z >> 30)).wrapping_mul(0xBF58_476D_1CE4_E5B9);
        z = (z ^ (z >> 27)).wrapping_mul(0x94D0_49BB_1331_11EB);
        z ^ (z >> 31)
    }

    /// A number below `count`; 0 where `count` is 0.
    pub fn below(&mut self, count: usize) -> usize {
        if count == 0 {
            return 0;
        }
        (self.bits() % count as u64) as usize
    }

    /// A number from `low` to `high`, both included.
    pub fn between(&mut self, low: usize, high: usize) -> usize {
        low + self.below(high - low + 1)
    }

    /// True in `parts` of 1000 calls.
    pub fn per_mille(&mut self, parts: usize) -> bool {
        self.below(1000) < parts
    }

    /// One of the values, each as likely.
    pub fn pick<T: Copy>(&mut self, from: &[T]) -> T {
        from[self.below(from.len())]
    }

    /// A number from 0 to 1, 1 excluded.
    pub fn unit(&mut self) -> f64 {
        (self.bits() >> 11) as f64 / (1u64 << 53) as f64
    }

    /// Puts the list into a random order.
    pub fn shuffle<T>(&mut self, list: &mut [T]) {
        for i in (1..list.len()).rev() {
            let j = self.below(i + 1);
            list.swap(i, j);
        }
    }

    /// The numbers 0 to n - 1 in a random order.
    pub fn permutation(&mut self, n: usize) -> Vec<usize> {
        let mut order: Vec<usize> = (0..n).collect();
        self.shuffle(&mut order);
        order
    }
}
