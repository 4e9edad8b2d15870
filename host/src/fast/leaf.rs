//! A leaf read in place: sixteen units of 16 bytes, so that no slot's place needs a test of its own.

pub type Block = [u8; 256];
pub const SLOTS: usize = 14;
pub const OCCUPIED: u64 = (1 << SLOTS) - 1;
pub const LOCK: u64 = 1 << 14;
pub const ALT: u64 = 1 << 15;

#[derive(Clone, Copy)]
pub struct Leaf<'a> {
    units: &'a [[u8; 16]; 16],
}

#[inline(always)]
pub fn fingerprint(key: u64) -> u8 {
    let half = key ^ (key >> 32);
    let quarter = half ^ (half >> 16);
    (quarter ^ (quarter >> 8)) as u8
}

#[inline(always)]
fn word(unit: &[u8; 16], at: usize) -> u64 {
    u64::from_le_bytes(unit.as_chunks::<8>().0[at])
}

impl<'a> Leaf<'a> {
    #[inline(always)]
    pub fn new(block: &'a Block) -> Leaf<'a> {
        Leaf { units: block.as_chunks::<16>().0.try_into().expect("256 bytes are 16 units") }
    }

    #[inline(always)]
    pub fn header(self) -> [u64; 2] {
        [word(&self.units[0], 0), word(&self.units[0], 1)]
    }

    #[inline(always)]
    pub fn fingerprint(self, slot: usize) -> u8 {
        self.units[0][(slot + 2) & 15]
    }

    #[inline(always)]
    pub fn key(self, slot: usize) -> u64 {
        word(&self.units[(slot + 1) & 15], 0)
    }

    #[inline(always)]
    pub fn value(self, slot: usize) -> u64 {
        word(&self.units[(slot + 1) & 15], 1)
    }

    #[inline(always)]
    pub fn active_sibling(self, word_0: u64) -> u64 {
        word(&self.units[15], usize::from(word_0 & ALT != 0))
    }

    /// The slots with this fingerprint, vacant ones included.
    #[inline(always)]
    pub fn alike(self, fingerprint: u8) -> u64 {
        (0..SLOTS).fold(0, |bits, slot| bits | u64::from(self.fingerprint(slot) == fingerprint) << slot)
    }

    /// The occupied slot with this key: keys are read only where the fingerprint is the key's.
    #[inline(always)]
    pub fn slot_of(self, key: u64) -> Option<usize> {
        slots(self.alike(fingerprint(key)) & self.header()[0]).find(|&slot| self.key(slot) == key)
    }
}

/// The slots whose bits are set, rising.
#[inline(always)]
pub fn slots(mut bits: u64) -> impl Iterator<Item = usize> {
    bits &= OCCUPIED;
    std::iter::from_fn(move || {
        let slot = bits.trailing_zeros() as usize;
        let some = bits != 0;
        bits &= bits.wrapping_sub(1);
        some.then_some(slot)
    })
}
