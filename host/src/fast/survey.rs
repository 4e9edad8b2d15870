//! One walk of the chain: it judges, and notes the target, the leaf before it and the blocks.
use super::leaf::{LOCK, Leaf, OCCUPIED, fingerprint, slots};

/// What one walk of a sound image tells.
pub struct Survey {
    pub target: usize,
    pub before_target: usize,
    pub leaves: usize,
    chained: [u64; 4],
}

impl Survey {
    /// The lowest block not in the chain, below `blocks`.
    pub fn free_block(&self, blocks: usize) -> Option<usize> {
        let lowest = |at: usize| (!self.chained[at] != 0).then(|| 64 * at + self.chained[at].trailing_ones() as usize);
        (0..4).find_map(lowest).filter(|&block| block < blocks)
    }
}

/// What the slots of one leaf add up to.
struct Seen {
    wrong: u8,
    smallest: u64,
    largest: u64,
    /// The slots whose fingerprint an earlier slot has.
    hits: u64,
}

/// `stamps[f]` is the number of the last leaf that had fingerprint f: never cleared between leaves.
#[inline(always)]
fn look(leaf: Leaf, bits: u64, stamps: &mut [u16; 256], number: u16) -> Seen {
    let mut seen = Seen { wrong: 0, smallest: u64::MAX, largest: 0, hits: 0 };
    for slot in slots(bits) {
        let key = leaf.key(slot);
        let own = fingerprint(key);
        let stamp = &mut stamps[usize::from(own)];
        seen.wrong |= own ^ leaf.fingerprint(slot);
        seen.hits |= u64::from(*stamp == number) << slot;
        *stamp = number;
        seen.smallest = seen.smallest.min(key);
        seen.largest = seen.largest.max(key);
    }
    seen
}

/// One of these slots, whose fingerprints were met before in the leaf, has the key of another occupied one.
#[inline(always)]
fn equal_keys(leaf: Leaf, bits: u64, hits: u64) -> bool {
    slots(hits).any(|slot| {
        let others = leaf.alike(leaf.fingerprint(slot)) & bits & !(1 << slot);
        slots(others).any(|other| leaf.key(other) == leaf.key(slot))
    })
}

/// The survey of a sound image for this key, or none. `note` hears each leaf's place on the chain, block, smallest key (the
/// largest number for an empty block 0) and occupied slots before the verdict is known.
#[inline(always)]
pub fn survey(image: &[u8], key: u64, mut note: impl FnMut(usize, usize, u64, u64)) -> Option<Survey> {
    let blocks = image.as_chunks::<256>().0;
    let mut stamps = [0; 256];
    let mut survey = Survey { target: 0, before_target: 0, leaves: 0, chained: [0; 4] };
    let (mut block, mut before, mut largest) = (0, 0, None);
    loop {
        let leaf = Leaf::new(blocks.get(block)?);
        let word_0 = leaf.header()[0];
        let bits = word_0 & OCCUPIED;
        let place = &mut survey.chained[(block >> 6) & 3];
        if word_0 & LOCK != 0 || *place >> (block & 63) & 1 == 1 {
            return None;
        }
        *place |= 1 << (block & 63);
        let seen = look(leaf, bits, &mut stamps, survey.leaves as u16 + 1);
        if seen.wrong != 0
            || largest.is_some_and(|largest| seen.smallest <= largest)
            || equal_keys(leaf, bits, seen.hits)
        {
            return None;
        }
        if seen.smallest <= key {
            (survey.target, survey.before_target) = (block, before);
        }
        if bits != 0 {
            largest = Some(seen.largest);
        } else if block != 0 {
            return None;
        }
        note(survey.leaves, block, seen.smallest, bits);
        survey.leaves += 1;
        let next = leaf.active_sibling(word_0);
        if next == 0 {
            return Some(survey);
        }
        before = block;
        block = usize::try_from(next).ok()?;
    }
}
