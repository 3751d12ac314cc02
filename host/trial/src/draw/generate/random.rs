//! Numbers that a seed fixes.

/// A small seeded generator (splitmix64): the same seed gives the same runs everywhere.
#[derive(Clone, Debug)]
pub struct Random(u64);

impl Random {
    /// A generator that starts from this seed.
    ///
    /// ```
    /// use chronicle_trial::generate::Random;
    ///
    /// assert_eq!(Random::new(7).next(), Random::new(7).next());
    /// ```
    pub fn new(seed: u64) -> Random {
        Random(seed)
    }

    /// The next 64 bits.
    ///
    /// ```
    /// use chronicle_trial::generate::Random;
    ///
    /// assert_eq!(Random::new(0).next(), 0xe220a8397b1dcdaf);
    /// ```
    #[allow(clippy::should_implement_trait)]
    pub fn next(&mut self) -> u64 {
        self.0 = self.0.wrapping_add(0x9e37_79b9_7f4a_7c15);
        let mut z = self.0;
        z = (z ^ (z >> 30)).wrapping_mul(0xbf58_476d_1ce4_e5b9);
        z = (z ^ (z >> 27)).wrapping_mul(0x94d0_49bb_1331_11eb);
        z ^ (z >> 31)
    }

    /// A number from 0 up to but not including `bound`, which is not 0.
    ///
    /// ```
    /// use chronicle_trial::generate::Random;
    ///
    /// assert!(Random::new(1).below(6) < 6);
    /// ```
    pub fn below(&mut self, bound: usize) -> usize {
        (self.next() % bound as u64) as usize
    }

    /// One of the items, of which there is at least one.
    ///
    /// ```
    /// use chronicle_trial::generate::Random;
    ///
    /// assert!([3, 5].contains(&Random::new(1).pick(&[3, 5])));
    /// ```
    pub fn pick<T: Copy>(&mut self, items: &[T]) -> T {
        items[self.below(items.len())]
    }

    /// A random byte.
    ///
    /// ```
    /// use chronicle_trial::generate::Random;
    ///
    /// assert_eq!(Random::new(0).byte(), 0xaf);
    /// ```
    pub fn byte(&mut self) -> u8 {
        self.next() as u8
    }
}
