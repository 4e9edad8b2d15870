//! Put, set and del written straight into the lent list.
use super::leaf::{ALT, Leaf, OCCUPIED, SLOTS, fingerprint, slots};
use super::order::rising;
use crate::answers::{Counts, LineWrites, WordWrites};

pub type List = [u64; 112];

/// The list with what was written of it so far.
pub struct Writer<'a> {
    list: &'a mut List,
    words: usize,
    line_writes: u64,
    word_writes: u64,
}

/// The bits of each line's slots.
const LINES: [u64; 4] = [0b111, 0b1111 << 3, 0b1111 << 7, 0b111 << 11];

#[derive(Clone, Copy)]
pub struct Header {
    words: [u64; 2],
}

impl Header {
    #[inline(always)]
    fn with(self, slot: usize, fingerprint: u8) -> Header {
        let Header { mut words } = self;
        let shift = 8 * ((slot + 2) & 7);
        let word = &mut words[usize::from(slot >= 6)];
        *word = *word & !(0xFF << shift) | u64::from(fingerprint) << shift;
        words[0] |= 1 << slot;
        Header { words }
    }
}

impl<'a> Writer<'a> {
    pub fn new(list: &'a mut List) -> Writer<'a> {
        Writer { list, words: 0, line_writes: 0, word_writes: 0 }
    }

    #[inline(always)]
    fn pair(&mut self, first: u64, second: u64) {
        if let Some(pair) = self.list.get_mut(self.words..self.words + 2) {
            pair.copy_from_slice(&[first, second]);
        }
        self.words += 2;
    }

    #[inline(always)]
    fn store(&mut self, block: usize, place: usize, value: u64) {
        self.pair((256 * block + place) as u64, value);
        self.word_writes += 1;
    }

    #[inline(always)]
    fn entry(&mut self, block: usize, slot: usize, key: u64, value: u64) {
        self.store(block, 16 + 16 * slot, key);
        self.store(block, 24 + 16 * slot, value);
    }

    #[inline(always)]
    fn write_back(&mut self, block: usize, line: usize) {
        self.pair((1 << 32) + (4 * block + line) as u64, 0);
        self.line_writes += 1;
    }

    #[inline(always)]
    fn fence(&mut self) {
        self.pair(1 << 33, 0);
    }

    #[inline(always)]
    fn settle(&mut self, block: usize, line: usize) {
        self.write_back(block, line);
        self.fence();
    }

    pub fn counts(&self) -> Counts {
        Counts {
            steps: self.words as u64 / 2,
            line_writes: LineWrites(self.line_writes),
            word_writes: WordWrites(self.word_writes),
        }
    }
}

pub fn set(out: &mut Writer, block: usize, slot: usize, value: u64) {
    out.store(block, 24 + 16 * slot, value);
    out.settle(block, (slot + 1) / 4);
}

pub fn clear(out: &mut Writer, block: usize, leaf: Leaf, slot: usize) {
    out.store(block, 0, leaf.header()[0] & !(1 << slot));
    out.settle(block, 0);
}

pub fn unlink(out: &mut Writer, before: usize, before_leaf: Leaf, sibling: u64) {
    let alt = usize::from(before_leaf.header()[0] & ALT != 0);
    out.store(before, 240 + 8 * alt, sibling);
    out.settle(before, 3);
}

/// A put into a leaf with a vacant slot, under this header (which differs from the leaf's own after a split).
pub fn plain_put(out: &mut Writer, block: usize, leaf: Leaf, words: [u64; 2], key: u64, value: u64) {
    let slot = words[0].trailing_ones() as usize;
    let line = (slot + 1) / 4;
    let mut header = Header { words }.with(slot, fingerprint(key));
    out.entry(block, slot, key, value);
    if line > 0 {
        for (from, to) in slots(!header.words[0] & LINES[line & 3]).enumerate() {
            out.entry(block, to, leaf.key(from), leaf.value(from));
            header = header.with(to, leaf.fingerprint(from));
            header.words[0] &= !(1 << from);
        }
        out.settle(block, line);
        out.store(block, 8, header.words[1]);
    }
    out.store(block, 0, header.words[0]);
    out.settle(block, 0);
}

pub fn split_put(out: &mut Writer, block: usize, leaf: Leaf, fresh: usize, key: u64, value: u64) {
    let words = leaf.header();
    let order = rising(leaf, OCCUPIED);
    let into_new_leaf = key > leaf.key(usize::from(order[7]));
    let mut new = [0; 32];
    let mut header = Header { words: [0; 2] };
    let mut old_word_0 = words[0] ^ ALT;
    for to in 7..SLOTS {
        let from = usize::from(order[to]);
        (new[2 + 2 * to], new[3 + 2 * to]) = (leaf.key(from), leaf.value(from));
        header = header.with(to, leaf.fingerprint(from));
        old_word_0 &= !(1 << from);
    }
    if into_new_leaf {
        (new[14], new[15]) = (key, value);
        header = header.with(6, fingerprint(key));
    }
    [new[0], new[1]] = header.words;
    new[30] = leaf.active_sibling(words[0]);
    write_split(out, block, old_word_0, fresh, &new);
    if !into_new_leaf {
        plain_put(out, block, leaf, [old_word_0, words[1]], key, value);
    }
}

fn write_split(out: &mut Writer, block: usize, old_word_0: u64, fresh: usize, new: &[u64; 32]) {
    for (at, &word) in new.iter().enumerate() {
        out.store(fresh, 8 * at, word);
    }
    out.store(block, 240 + 8 * usize::from(old_word_0 & ALT != 0), fresh as u64);
    for line in 0..4 {
        out.write_back(fresh, line);
    }
    out.settle(block, 3);
    out.store(block, 0, old_word_0);
    out.settle(block, 0);
}
