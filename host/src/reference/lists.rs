//! The exact step lists of put, set and del.
use super::image::Chained;
use super::leaf::{Leaf, SLOTS, fingerprint, key_place, line_of, sibling_place, value_place};
use super::steps::Step;

#[derive(Clone, Copy, Debug)]
pub struct Entry {
    pub key: u64,
    pub value: u64,
}

/// "Store the value word, write back its line, fence."
pub fn set(block: usize, slot: usize, value: u64) -> Vec<Step> {
    vec![Step::store(block, value_place(slot), value), Step::write_back(block, line_of(slot)), Step::Fence]
}

/// Del of the entry in this slot of the chain's leaf at this position.
pub fn del(chain: &[Chained], position: usize, slot: usize) -> Vec<Step> {
    let Chained { block, leaf } = &chain[position];
    if *block != 0 && leaf.occupied_slots() == [slot] {
        return unlink(&chain[position - 1], leaf.active_sibling());
    }
    let mut after = *leaf;
    after.clear(slot);
    vec![Step::store(*block, 0, after.words[0]), Step::write_back(*block, 0), Step::Fence]
}

/// "Store the leaf's active sibling in the active sibling of the leaf before it, write back that line, fence."
fn unlink(before: &Chained, sibling: u64) -> Vec<Step> {
    let place = sibling_place(before.leaf.alt());
    vec![Step::store(before.block, place, sibling), Step::write_back(before.block, 3), Step::Fence]
}

/// "Plain put (target not full): take the lowest vacant slot."
pub fn plain_put(block: usize, leaf: &Leaf, entry: Entry) -> Vec<Step> {
    let slot = leaf.vacant_slots()[0];
    if line_of(slot) == 0 { put_in_line_0(block, leaf, slot, entry) } else { put_past_line_0(block, leaf, slot, entry) }
}

fn put_in_line_0(block: usize, leaf: &Leaf, slot: usize, entry: Entry) -> Vec<Step> {
    let mut after = *leaf;
    after.mark(slot, fingerprint(entry.key));
    let mut steps = store_entry(block, slot, entry);
    steps.extend([Step::store(block, 0, after.words[0]), Step::write_back(block, 0), Step::Fence]);
    steps
}

fn put_past_line_0(block: usize, leaf: &Leaf, slot: usize, entry: Entry) -> Vec<Step> {
    let line = line_of(slot);
    let mut after = *leaf;
    let mut steps = store_entry(block, slot, entry);
    after.mark(slot, fingerprint(entry.key));
    let others = leaf.vacant_slots().into_iter().filter(|&other| other != slot && line_of(other) == line);
    let movable = (0..3).filter(|&from| leaf.occupied(from));
    for (to, from) in others.zip(movable) {
        steps.extend(store_entry(block, to, Entry { key: leaf.key(from), value: leaf.value(from) }));
        after.mark(to, fingerprint(leaf.key(from)));
        after.clear(from);
    }
    steps.extend([Step::write_back(block, line), Step::Fence]);
    steps.extend([Step::store(block, 8, after.words[1]), Step::store(block, 0, after.words[0])]);
    steps.extend([Step::write_back(block, 0), Step::Fence]);
    steps
}

fn store_entry(block: usize, slot: usize, entry: Entry) -> Vec<Step> {
    vec![Step::store(block, key_place(slot), entry.key), Step::store(block, value_place(slot), entry.value)]
}

/// "Put into a full leaf": `fresh` is the lowest block not in the chain.
pub fn split_put(block: usize, leaf: &Leaf, fresh: usize, entry: Entry) -> Vec<Step> {
    let moved = seven_largest(leaf);
    let into_new_leaf = entry.key > leaf.key(moved[0]);
    let new_leaf = new_leaf(leaf, &moved, into_new_leaf.then_some(entry));
    let mut old_leaf = *leaf;
    for slot in moved {
        old_leaf.clear(slot);
    }
    old_leaf.flip_alt();
    let mut steps = split(block, &old_leaf, fresh, &new_leaf);
    if !into_new_leaf {
        steps.extend(plain_put(block, &old_leaf, entry));
    }
    steps
}

/// The slots of the seven largest keys, in rising order of their keys.
pub fn seven_largest(leaf: &Leaf) -> Vec<usize> {
    let mut slots: Vec<usize> = (0..SLOTS).collect();
    slots.sort_by_key(|&slot| leaf.key(slot));
    slots.split_off(7)
}

fn new_leaf(full: &Leaf, moved: &[usize], in_slot_6: Option<Entry>) -> Leaf {
    let mut new = Leaf::blank();
    for (to, &from) in (7..SLOTS).zip(moved) {
        fill(&mut new, to, Entry { key: full.key(from), value: full.value(from) });
    }
    if let Some(entry) = in_slot_6 {
        fill(&mut new, 6, entry);
    }
    new.set_word(sibling_place(0), full.active_sibling());
    new
}

pub fn fill(leaf: &mut Leaf, slot: usize, entry: Entry) {
    leaf.set_word(key_place(slot), entry.key);
    leaf.set_word(value_place(slot), entry.value);
    leaf.mark(slot, fingerprint(entry.key));
}

/// The 42 steps of a split. `old_leaf` has its header as it is after the switch, so its active sibling's place is the
/// one that is inactive until then.
pub fn split(block: usize, old_leaf: &Leaf, fresh: usize, new_leaf: &Leaf) -> Vec<Step> {
    let mut steps = Vec::new();
    for (at, &word) in new_leaf.words.iter().enumerate() {
        steps.push(Step::store(fresh, 8 * at, word));
    }
    steps.push(Step::store(block, sibling_place(old_leaf.alt()), fresh as u64));
    for line in 0..4 {
        steps.push(Step::write_back(fresh, line));
    }
    steps.extend([Step::write_back(block, 3), Step::Fence]);
    steps.extend([Step::store(block, 0, old_leaf.words[0]), Step::write_back(block, 0), Step::Fence]);
    steps
}
