//! The leaf as document 01's table gives it: 256 bytes read into 32 words.

pub const BLOCK_BYTES: usize = 256;
pub const LINE_BYTES: usize = 64;
pub const SLOTS: usize = 14;
pub const LOCK_BIT: u32 = 14;
pub const ALT_BIT: u32 = 15;

/// "The fingerprint of a key is the exclusive-or of its eight bytes."
pub fn fingerprint(key: u64) -> u8 {
    key.to_le_bytes().into_iter().fold(0, |so_far, byte| so_far ^ byte)
}

/// "Slots 0 to 2 are in line 0, 3 to 6 in line 1, 7 to 10 in line 2, 11 to 13 in line 3 with the siblings."
pub fn line_of(slot: usize) -> usize {
    match slot {
        0..=2 => 0,
        3..=6 => 1,
        7..=10 => 2,
        11..=13 => 3,
        _ => panic!("a leaf has no slot {slot}"),
    }
}

pub fn key_place(slot: usize) -> usize {
    16 + 16 * slot
}

pub fn value_place(slot: usize) -> usize {
    24 + 16 * slot
}

pub fn sibling_place(which: usize) -> usize {
    240 + 8 * which
}

/// One leaf's words. Places are bytes from the leaf's start.
#[derive(Clone, Copy, Debug, PartialEq, Eq)]
pub struct Leaf {
    pub words: [u64; 32],
}

impl Leaf {
    pub fn blank() -> Leaf {
        Leaf { words: [0; 32] }
    }

    pub fn read(image: &[u8], block: usize) -> Leaf {
        let mut leaf = Leaf::blank();
        let bytes = &image[BLOCK_BYTES * block..BLOCK_BYTES * (block + 1)];
        for (word, eight) in leaf.words.iter_mut().zip(bytes.chunks_exact(8)) {
            *word = u64::from_le_bytes(eight.try_into().expect("eight bytes"));
        }
        leaf
    }

    pub fn word(&self, place: usize) -> u64 {
        self.words[place / 8]
    }

    pub fn set_word(&mut self, place: usize, value: u64) {
        self.words[place / 8] = value;
    }

    fn bit(&self, bit: u32) -> bool {
        self.words[0] >> bit & 1 == 1
    }

    pub fn lock(&self) -> bool {
        self.bit(LOCK_BIT)
    }

    /// 0 or 1: which sibling is the active one.
    pub fn alt(&self) -> usize {
        self.bit(ALT_BIT) as usize
    }

    pub fn occupied(&self, slot: usize) -> bool {
        self.bit(slot as u32)
    }

    pub fn occupied_slots(&self) -> Vec<usize> {
        (0..SLOTS).filter(|&slot| self.occupied(slot)).collect()
    }

    pub fn vacant_slots(&self) -> Vec<usize> {
        (0..SLOTS).filter(|&slot| !self.occupied(slot)).collect()
    }

    pub fn fingerprint(&self, slot: usize) -> u8 {
        let place = 2 + slot;
        self.word(place).to_le_bytes()[place % 8]
    }

    pub fn key(&self, slot: usize) -> u64 {
        self.word(key_place(slot))
    }

    pub fn value(&self, slot: usize) -> u64 {
        self.word(value_place(slot))
    }

    pub fn active_sibling(&self) -> u64 {
        self.word(sibling_place(self.alt()))
    }

    /// The keys of the occupied slots, in slot order.
    pub fn keys(&self) -> Vec<u64> {
        self.occupied_slots().into_iter().map(|slot| self.key(slot)).collect()
    }

    /// The smallest key; none in an empty leaf.
    pub fn smallest(&self) -> Option<u64> {
        self.keys().into_iter().min()
    }

    /// The occupied slot with this key. Never a match on the fingerprint alone, nor on a vacant slot.
    pub fn slot_of(&self, key: u64) -> Option<usize> {
        self.occupied_slots().into_iter().find(|&slot| self.key(slot) == key)
    }

    pub fn mark(&mut self, slot: usize, fingerprint: u8) {
        self.words[0] |= 1 << slot;
        let place = 2 + slot;
        let mut bytes = self.word(place).to_le_bytes();
        bytes[place % 8] = fingerprint;
        self.set_word(place, u64::from_le_bytes(bytes));
    }

    /// Clears the slot's bit; its fingerprint stays.
    pub fn clear(&mut self, slot: usize) {
        self.words[0] &= !(1 << slot);
    }

    pub fn flip_alt(&mut self) {
        self.words[0] ^= 1 << ALT_BIT;
    }
}
