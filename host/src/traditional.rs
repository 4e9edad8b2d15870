//! The same leaf without entry moving, to measure ours against: what source 001, section 3.5, calls the traditional
//! design. Every list is as safe as ours; only where entries stand, and so how many lines a put writes, differs.
use crate::answers::Refusal;
use crate::reference::image::{Chained, sound_chain, target};
use crate::reference::leaf::{Leaf, fingerprint, key_place, line_of, sibling_place, value_place};
use crate::reference::lists::{Entry, fill, seven_largest, split};
use crate::reference::lowest_unchained;
use crate::reference::steps::Step;

/// Where a split puts the seven moved entries.
#[derive(Clone, Copy, Debug, PartialEq, Eq)]
pub enum Packing {
    /// Slots 7 to 13, the new entry in slot 6: our split.
    FromTheEnd,
    /// Slots 0 to 6, the new entry in slot 7: 001's figure 8(b).
    FromTheStart,
}

pub fn put_steps(image: &[u8], packing: Packing, key: u64, value: u64) -> Result<Vec<Step>, Refusal> {
    let chain = sound_chain(image).ok_or(Refusal::NotSound)?;
    let Chained { block, leaf } = &chain[target(&chain, key)];
    let entry = Entry { key, value };
    if leaf.slot_of(key).is_some() {
        return Err(Refusal::KeyPresent);
    }
    if !leaf.vacant_slots().is_empty() {
        return Ok(plain_put(*block, leaf, entry));
    }
    let fresh = lowest_unchained(image, &chain).ok_or(Refusal::NoBlockLeft)?;
    Ok(split_put(*block, leaf, fresh, packing, entry))
}

/// The lowest vacant slot is filled and no entry moves. Word 1 is stored only where the fingerprint stands in it.
fn plain_put(block: usize, leaf: &Leaf, entry: Entry) -> Vec<Step> {
    let slot = leaf.vacant_slots()[0];
    let mut after = *leaf;
    after.mark(slot, fingerprint(entry.key));
    let mut steps =
        vec![Step::store(block, key_place(slot), entry.key), Step::store(block, value_place(slot), entry.value)];
    if line_of(slot) > 0 {
        steps.extend([Step::write_back(block, line_of(slot)), Step::Fence]);
    }
    if slot >= 6 {
        steps.push(Step::store(block, 8, after.words[1]));
    }
    steps.extend([Step::store(block, 0, after.words[0]), Step::write_back(block, 0), Step::Fence]);
    steps
}

fn split_put(block: usize, leaf: &Leaf, fresh: usize, packing: Packing, entry: Entry) -> Vec<Step> {
    let moved = seven_largest(leaf);
    let (first, beside) = if packing == Packing::FromTheEnd { (7, 6) } else { (0, 7) };
    let (mut new, mut old) = (Leaf::blank(), *leaf);
    for (to, &from) in (first..).zip(&moved) {
        fill(&mut new, to, Entry { key: leaf.key(from), value: leaf.value(from) });
        old.clear(from);
    }
    old.flip_alt();
    new.set_word(sibling_place(0), leaf.active_sibling());
    if entry.key > leaf.key(moved[0]) {
        fill(&mut new, beside, entry);
        return split(block, &old, fresh, &new);
    }
    let mut steps = split(block, &old, fresh, &new);
    steps.extend(plain_put(block, &old, entry));
    steps
}
