//! The image: its length, its chain, the seven clauses of soundness one by one, its map, and the target leaf.
use super::leaf::{BLOCK_BYTES, Leaf, fingerprint};

pub fn good_length(image: &[u8]) -> bool {
    !image.is_empty() && image.len() <= 65_536 && image.len().is_multiple_of(BLOCK_BYTES)
}

/// N
pub fn blocks(image: &[u8]) -> usize {
    image.len() / BLOCK_BYTES
}

/// A leaf met on the walk, with its block number.
#[derive(Clone, Debug)]
pub struct Chained {
    pub block: usize,
    pub leaf: Leaf,
}

/// How the walk along the active siblings came to its end.
#[derive(Clone, Copy, Debug, PartialEq, Eq)]
pub enum End {
    /// A sibling of 0.
    Zero,
    /// A sibling of N or more.
    OutOfImage,
    /// A sibling that names a block met before.
    MetBefore,
}

/// The leaves met from block 0 on, and why there are no more.
#[derive(Clone, Debug)]
pub struct Walk {
    pub leaves: Vec<Chained>,
    pub end: End,
}

pub fn walk(image: &[u8]) -> Walk {
    let mut met = vec![false; blocks(image)];
    let mut leaves = Vec::new();
    let mut block = 0;
    loop {
        met[block] = true;
        let leaf = Leaf::read(image, block);
        leaves.push(Chained { block, leaf });
        let next = leaf.active_sibling();
        if next == 0 {
            return Walk { leaves, end: End::Zero };
        }
        if next >= blocks(image) as u64 {
            return Walk { leaves, end: End::OutOfImage };
        }
        block = next as usize;
        if met[block] {
            return Walk { leaves, end: End::MetBefore };
        }
    }
}

/// The clauses of "an image is sound if", in the document's order.
#[derive(Clone, Copy, Debug, PartialEq, Eq)]
pub enum Clause {
    LockZero,
    SiblingBelowN,
    NoBlockTwice,
    OwnFingerprint,
    KeysDiffer,
    AboveEarlier,
    NoneEmptyButBlockZero,
}

impl Clause {
    pub const ALL: [Clause; 7] = [
        Clause::LockZero,
        Clause::SiblingBelowN,
        Clause::NoBlockTwice,
        Clause::OwnFingerprint,
        Clause::KeysDiffer,
        Clause::AboveEarlier,
        Clause::NoneEmptyButBlockZero,
    ];

    pub fn holds(self, walk: &Walk) -> bool {
        let mut leaves = walk.leaves.iter();
        match self {
            Clause::LockZero => leaves.all(|chained| !chained.leaf.lock()),
            Clause::SiblingBelowN => walk.end != End::OutOfImage,
            Clause::NoBlockTwice => walk.end != End::MetBefore,
            Clause::OwnFingerprint => leaves.all(|chained| own_fingerprints(&chained.leaf)),
            Clause::KeysDiffer => leaves.all(|chained| keys_differ(&chained.leaf)),
            Clause::AboveEarlier => above_earlier(walk),
            Clause::NoneEmptyButBlockZero => {
                leaves.all(|chained| chained.block == 0 || !chained.leaf.occupied_slots().is_empty())
            }
        }
    }
}

fn own_fingerprints(leaf: &Leaf) -> bool {
    leaf.occupied_slots().into_iter().all(|slot| leaf.fingerprint(slot) == fingerprint(leaf.key(slot)))
}

fn keys_differ(leaf: &Leaf) -> bool {
    let mut keys = leaf.keys();
    keys.sort();
    keys.windows(2).all(|pair| pair[0] != pair[1])
}

fn above_earlier(walk: &Walk) -> bool {
    let mut largest_earlier: Option<u64> = None;
    for chained in &walk.leaves {
        let keys = chained.leaf.keys();
        if let Some(earlier) = largest_earlier
            && keys.iter().any(|&key| key <= earlier)
        {
            return false;
        }
        largest_earlier = largest_earlier.max(keys.into_iter().max());
    }
    true
}

/// The clauses that do not hold.
pub fn broken(image: &[u8]) -> Vec<Clause> {
    let walk = walk(image);
    Clause::ALL.into_iter().filter(|clause| !clause.holds(&walk)).collect()
}

/// A sound image's chain; none where a clause is broken.
pub fn sound_chain(image: &[u8]) -> Option<Vec<Chained>> {
    let walk = walk(image);
    let sound = Clause::ALL.into_iter().all(|clause| clause.holds(&walk));
    sound.then_some(walk.leaves)
}

/// "The map of a sound image is its occupied entries": here in rising order of keys.
pub fn entries(chain: &[Chained]) -> Vec<(u64, u64)> {
    let mut entries = Vec::new();
    for Chained { leaf, .. } in chain {
        entries.extend(leaf.occupied_slots().into_iter().map(|slot| (leaf.key(slot), leaf.value(slot))));
    }
    entries.sort();
    entries
}

/// The map, where the image is sound.
pub fn map_of(image: &[u8]) -> Option<Vec<(u64, u64)>> {
    sound_chain(image).map(|chain| entries(&chain))
}

/// Where on the chain the target leaf is: "the last chained leaf whose smallest key is at most that key; if there is
/// none, block 0".
pub fn target(chain: &[Chained], key: u64) -> usize {
    let at_most = |chained: &Chained| chained.leaf.smallest().is_some_and(|smallest| smallest <= key);
    chain.iter().rposition(at_most).unwrap_or(0)
}
