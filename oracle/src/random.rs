//! Random numbers that a seed and the number of an image fix.

/// The generator splitmix64.
pub struct Random {
    state: u64,
}

impl Random {
    /// The numbers for one image of a run.
    pub fn new(seed: u64, image: u64) -> Self {
        let mut random = Random {
            state: seed ^ image.wrapping_mul(0xd134_2543_de82_ef95),
        };
        random.state = random.next().wrapping_add(image);
        random
    }

    pub fn next(&mut self) -> u64 {
        self.state = self.state.wrapping_add(0x9e37_79b9_7f4a_7c15);
        let mut mixed = self.state;
        mixed = (mixed ^ (mixed >> 30)).wrapping_mul(0xbf58_476d_1ce4_e5b9);
        mixed = (mixed ^ (mixed >> 27)).wrapping_mul(0x94d0_49bb_1331_11eb);
        mixed ^ (mixed >> 31)
    }

    /// A number below `count`, or 0 where there is none.
    pub fn below(&mut self, count: usize) -> usize {
        if count == 0 {
            return 0;
        }
        ((u128::from(self.next()) * count as u128) >> 64) as usize
    }

    /// True in so many of a thousand cases.
    pub fn chance(&mut self, of_thousand: usize) -> bool {
        self.below(1000) < of_thousand
    }

    pub fn pick<T: Copy>(&mut self, choices: &[T]) -> T {
        choices[self.below(choices.len())]
    }
}
