//! A seeded generator of our own (splitmix64), so that a seed means the same histories everywhere.

pub struct Random {
    state: u64,
}

impl Random {
    /// The generator of one history: the same seed and number always give the same draws.
    pub fn new(seed: u64, history: u64) -> Self {
        let mut seeded = Self { state: seed };
        let mixed = seeded.draw() ^ history;
        Self { state: mixed }
    }

    pub fn draw(&mut self) -> u64 {
        self.state = self.state.wrapping_add(0x9e37_79b9_7f4a_7c15);
        let mut mixed = self.state;
        mixed = (mixed ^ (mixed >> 30)).wrapping_mul(0xbf58_476d_1ce4_e5b9);
        mixed = (mixed ^ (mixed >> 27)).wrapping_mul(0x94d0_49bb_1331_11eb);
        mixed ^ (mixed >> 31)
    }

    /// A number below `end`, which is not 0.
    pub fn below(&mut self, end: u64) -> u64 {
        ((u128::from(self.draw()) * u128::from(end)) >> 64) as u64
    }

    /// A number from `first` to `last`, both ends included.
    pub fn between(&mut self, first: u64, last: u64) -> u64 {
        first + self.below(last - first + 1)
    }

    pub fn one_in(&mut self, chances: u64) -> bool {
        self.below(chances) == 0
    }

    pub fn pick<T: Copy>(&mut self, choices: &[T]) -> T {
        choices[self.below(choices.len() as u64) as usize]
    }

    /// The choice whose weight is drawn.
    pub fn weighted<T: Copy>(&mut self, choices: &[(u64, T)]) -> T {
        let total = choices.iter().map(|(weight, _)| weight).sum();
        let mut draw = self.below(total);
        for &(weight, choice) in choices {
            if draw < weight {
                return choice;
            }
            draw -= weight;
        }
        unreachable!("a draw below the total of the weights falls on one of them")
    }
}
