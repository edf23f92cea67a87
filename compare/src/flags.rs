//! The flag words that a text is compared under.
use crate::random::Random;

const SEED: u64 = 2;
/// The bits that the crate knows, 0x0800 among them, which does nothing.
const KNOWN: u32 = 0x01F0_1EE6;
/// What the crate's `llvm()` gives.
const LLVM: u32 = 0x00E0_0400;
/// Each of its two bits does nothing alone.
const NO_THISTYPE: u32 = 0x60;
/// Random sets of known bits for a symbol.
const RANDOM_SETS: usize = 4;

pub struct FlagWords(Random);

impl FlagWords {
    pub fn new() -> FlagWords {
        FlagWords(Random::new(SEED))
    }

    /// The words for a symbol: no bit, all known bits, each known bit alone, and other sets.
    pub fn next(&mut self) -> Vec<u32> {
        let single = (0..u32::BITS).map(|bit| 1 << bit).filter(|bit| KNOWN & bit != 0);
        let mut words = vec![0, KNOWN, LLVM, NO_THISTYPE];
        words.extend(single);
        words.extend((0..RANDOM_SETS).map(|_| self.random_set()));
        words
    }

    /// Each known bit is in one of four such sets.
    fn random_set(&mut self) -> u32 {
        KNOWN & self.random_bits() & self.random_bits()
    }

    fn random_bits(&mut self) -> u32 {
        self.0.below(1 << u32::BITS) as u32
    }
}
