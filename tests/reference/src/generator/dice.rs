//! The one source of chance: an xorshift with a star multiplier, the same for the same seed.

#[derive(Clone, Debug)]
pub struct Dice {
    state: u64,
}

impl Dice {
    /// Spreads the seed first, so that neighbouring seeds start far apart.
    pub fn new(seed: u64) -> Dice {
        let spread = seed.wrapping_add(0x9E37_79B9_7F4A_7C15);
        let spread = (spread ^ (spread >> 30)).wrapping_mul(0xBF58_476D_1CE4_E5B9);
        let spread = (spread ^ (spread >> 27)).wrapping_mul(0x94D0_49BB_1331_11EB);
        // An xorshift never leaves zero.
        Dice {
            state: (spread ^ (spread >> 31)).max(1),
        }
    }

    pub fn roll(&mut self) -> u64 {
        self.state ^= self.state >> 12;
        self.state ^= self.state << 25;
        self.state ^= self.state >> 27;
        self.state.wrapping_mul(0x2545_F491_4F6C_DD1D)
    }

    /// A number from 0 to `bound` - 1; 0 for bound 0.
    pub fn below(&mut self, bound: u64) -> u64 {
        (self.roll() >> 11) % bound.max(1)
    }

    pub fn index(&mut self, bound: usize) -> usize {
        self.below(bound as u64) as usize
    }

    /// A number from `low` to `high`, both possible.
    pub fn between(&mut self, low: u64, high: u64) -> u64 {
        low + self.below(high.saturating_sub(low).saturating_add(1))
    }

    pub fn percent(&mut self, chance: u64) -> bool {
        self.below(100) < chance
    }

    /// One of the choices, which must not be empty.
    pub fn pick<T: Copy>(&mut self, choices: &[T]) -> T {
        choices[self.index(choices.len())]
    }
}
