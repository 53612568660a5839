//! Buffers that stand between canaries.

/// Elements before and after the lent part.
const GUARD: usize = 16;

/// A number that no buffer is likely to hold by itself.
pub trait Canary: Copy + PartialEq {
    const CANARY: Self;
}

impl Canary for u8 {
    const CANARY: u8 = 0xA5;
}

impl Canary for u16 {
    const CANARY: u16 = 0xA55A;
}

impl Canary for u32 {
    const CANARY: u32 = 0xA55A_C33C;
}

/// A part to lend, in the middle of a block.
pub struct Guarded<T> {
    block: Vec<T>,
}

impl<T: Canary> Guarded<T> {
    pub fn new(part: impl IntoIterator<Item = T>) -> Guarded<T> {
        let mut block = vec![T::CANARY; GUARD];
        block.extend(part);
        block.extend([T::CANARY; GUARD]);
        Guarded { block }
    }

    fn end(&self) -> usize {
        self.block.len() - GUARD
    }

    pub fn part(&self) -> &[T] {
        &self.block[GUARD..self.end()]
    }

    pub fn part_mut(&mut self) -> &mut [T] {
        let end = self.end();
        &mut self.block[GUARD..end]
    }

    /// Whether every canary is as it was.
    pub fn is_intact(&self) -> bool {
        let (before, after) = (&self.block[..GUARD], &self.block[self.end()..]);
        before.iter().chain(after).all(|word| *word == T::CANARY)
    }
}

#[cfg(test)]
mod tests {
    use super::*;

    #[test]
    fn a_word_outside_is_seen() {
        for length in [0, 1, 40] {
            let mut guarded = Guarded::new(vec![7_u32; length]);
            assert_eq!(guarded.part(), vec![7; length]);
            guarded.part_mut().fill(8);
            assert!(guarded.is_intact());
            for place in [GUARD - 1, GUARD + length] {
                let mut spoilt = Guarded::new(guarded.part().iter().copied());
                spoilt.block[place] = 0;
                assert!(!spoilt.is_intact());
            }
        }
    }
}
