//! Where the keys of a run come from.
use crate::random::{Random, mix};

/// A set of keys that come again and again.
#[derive(Clone, Copy, Debug)]
pub enum Universe {
    /// The numbers below this one.
    Dense(u64),
    /// So many numbers anywhere in the 64 bits.
    Wide(u64),
    /// So many numbers that all have fingerprint 0: each byte stands twice.
    AllAlike(u64),
}

impl Universe {
    fn size(self) -> u64 {
        match self {
            Universe::Dense(size) | Universe::Wide(size) | Universe::AllAlike(size) => size,
        }
    }

    fn member(self, index: u64) -> u64 {
        match self {
            Universe::Dense(_) => index,
            Universe::Wide(_) => mix(index),
            Universe::AllAlike(_) => {
                let [first, second, third, ..] = mix(index).to_le_bytes();
                u64::from_le_bytes([first, first, 0, third, second, second, third, 0])
            }
        }
    }

    /// A key of the universe; keys 0 and 2^64 - 1 often.
    pub fn key(self, random: &mut Random) -> u64 {
        match random.below(24) {
            0 => 0,
            1 => u64::MAX,
            _ => self.member(random.below(self.size())),
        }
    }
}
