//! The baseline of `make bench`: the same calls with the same checks in the fastest plain Rust we know. One walk of the
//! chain, 8-byte loads, keys compared only where two fingerprints are equal, no allocation, no unsafe code.
mod leaf;
mod lists;
mod machine;
mod order;
mod survey;

use crate::answers::{Counts, Found, Listed, Made, Recovered, Refusal, Tree, number_of};
use crate::calls::Calls;
use leaf::{Leaf, OCCUPIED};
use lists::{List, Writer};
use survey::{Survey, survey};

/// The baseline as an implementation of the eight calls.
#[derive(Clone, Copy, Debug)]
pub struct Fast;

fn check_length(image: &[u8]) -> Result<(), Refusal> {
    let good = !image.is_empty() && image.len() <= 65_536 && image.len().is_multiple_of(256);
    if good { Ok(()) } else { Err(Refusal::ImageLength) }
}

fn leaf_at(image: &[u8], block: usize) -> Leaf<'_> {
    Leaf::new(&image.as_chunks::<256>().0[block])
}

#[inline(always)]
fn surveyed(image: &[u8], key: u64) -> Result<Survey, Refusal> {
    survey(image, key, |_, _, _, _| ()).ok_or(Refusal::NotSound)
}

fn room(list: &mut [u64]) -> Result<&mut List, Refusal> {
    list.first_chunk_mut().ok_or(Refusal::ListRoom)
}

pub fn find(image: &[u8], key: u64) -> Result<u64, Refusal> {
    check_length(image)?;
    let survey = surveyed(image, key)?;
    let leaf = leaf_at(image, survey.target);
    leaf.slot_of(key).map(|slot| leaf.value(slot)).ok_or(Refusal::KeyAbsent)
}

pub fn put(image: &[u8], list: &mut [u64], key: u64, value: u64) -> Result<Counts, Refusal> {
    check_length(image)?;
    let mut out = Writer::new(room(list)?);
    let survey = surveyed(image, key)?;
    let leaf = leaf_at(image, survey.target);
    if leaf.slot_of(key).is_some() {
        return Err(Refusal::KeyPresent);
    }
    let header = leaf.header();
    if header[0] & OCCUPIED != OCCUPIED {
        lists::plain_put(&mut out, survey.target, leaf, header, key, value);
    } else {
        let fresh = survey.free_block(image.len() / 256).ok_or(Refusal::NoBlockLeft)?;
        lists::split_put(&mut out, survey.target, leaf, fresh, key, value);
    }
    Ok(out.counts())
}

pub fn set(image: &[u8], list: &mut [u64], key: u64, value: u64) -> Result<Counts, Refusal> {
    check_length(image)?;
    let mut out = Writer::new(room(list)?);
    let survey = surveyed(image, key)?;
    let slot = leaf_at(image, survey.target).slot_of(key).ok_or(Refusal::KeyAbsent)?;
    lists::set(&mut out, survey.target, slot, value);
    Ok(out.counts())
}

pub fn del(image: &[u8], list: &mut [u64], key: u64) -> Result<Counts, Refusal> {
    check_length(image)?;
    let mut out = Writer::new(room(list)?);
    let survey = surveyed(image, key)?;
    let leaf = leaf_at(image, survey.target);
    let slot = leaf.slot_of(key).ok_or(Refusal::KeyAbsent)?;
    let word_0 = leaf.header()[0];
    if survey.target != 0 && word_0 & OCCUPIED == 1 << slot {
        let before = leaf_at(image, survey.before_target);
        lists::unlink(&mut out, survey.before_target, before, leaf.active_sibling(word_0));
    } else {
        lists::clear(&mut out, survey.target, leaf, slot);
    }
    Ok(out.counts())
}

pub fn listing(image: &[u8], from: u64, keys: &mut [u64], values: &mut [u64]) -> Result<u64, Refusal> {
    check_length(image)?;
    let survey = surveyed(image, from)?;
    let mut out = keys.iter_mut().zip(values);
    let (mut block, mut count) = (survey.target, 0);
    loop {
        let leaf = leaf_at(image, block);
        let word_0 = leaf.header()[0];
        let order = order::rising(leaf, word_0);
        for &slot in order.iter().take((word_0 & OCCUPIED).count_ones() as usize) {
            let key = leaf.key(usize::from(slot));
            if key < from {
                continue;
            }
            let Some((key_out, value_out)) = out.next() else { return Ok(count) };
            (*key_out, *value_out) = (key, leaf.value(usize::from(slot)));
            count += 1;
        }
        block = leaf.active_sibling(word_0) as usize;
        if block == 0 {
            return Ok(count);
        }
    }
}

pub fn recovery(image: &[u8], smallest: &mut [u64], blocks: &mut [u64]) -> Result<Tree, Refusal> {
    check_length(image)?;
    let most = image.len() / 256;
    if smallest.len() < most || blocks.len() < most {
        return Err(Refusal::BufferRoom);
    }
    let (mut met_smallest, mut met_blocks) = ([0; 256], [0; 256]);
    let mut entries = 0;
    let note = |at: usize, block: usize, key: u64, bits: u64| {
        (met_smallest[at & 255], met_blocks[at & 255]) = (key, block as u64);
        entries += u64::from(bits.count_ones());
    };
    let survey = survey(image, 0, note).ok_or(Refusal::NotSound)?;
    if leaf_at(image, 0).header()[0] & OCCUPIED == 0 {
        met_smallest[0] = 0;
    }
    smallest[..survey.leaves].copy_from_slice(&met_smallest[..survey.leaves]);
    blocks[..survey.leaves].copy_from_slice(&met_blocks[..survey.leaves]);
    Ok(Tree { leaves: survey.leaves as u64, entries })
}

fn steps_of<'a>(image: &[u8], list: &'a [u64], n: u64) -> Result<&'a [[u64; 2]], Refusal> {
    check_length(image)?;
    machine::checked(image, list, n).ok_or(Refusal::BadSteps)
}

pub fn run(image: &mut [u8], list: &[u64], n: u64) -> Result<(), Refusal> {
    let steps = steps_of(image, list, n)?;
    machine::run(image, steps);
    Ok(())
}

pub fn cut(image: &mut [u8], list: &[u64], n: u64, arrivals: &[u64]) -> Result<(), Refusal> {
    let steps = steps_of(image, list, n)?;
    if arrivals.len() != image.len() / 64 || !machine::permitted(steps, arrivals) {
        return Err(Refusal::BadArrivals);
    }
    machine::cut(image, steps, arrivals);
    Ok(())
}

impl Calls for Fast {
    fn find(&self, image: &[u8], key: u64) -> Found {
        find(image, key).into()
    }

    fn put(&self, image: &[u8], list: &mut [u64], key: u64, value: u64) -> Made {
        put(image, list, key, value).into()
    }

    fn set(&self, image: &[u8], list: &mut [u64], key: u64, value: u64) -> Made {
        set(image, list, key, value).into()
    }

    fn del(&self, image: &[u8], list: &mut [u64], key: u64) -> Made {
        del(image, list, key).into()
    }

    fn listing(&self, image: &[u8], from: u64, keys: &mut [u64], values: &mut [u64]) -> Listed {
        listing(image, from, keys, values).into()
    }

    fn recovery(&self, image: &[u8], smallest: &mut [u64], blocks: &mut [u64]) -> Recovered {
        recovery(image, smallest, blocks).into()
    }

    fn run(&self, image: &mut [u8], list: &[u64], n: u64) -> u64 {
        number_of(run(image, list, n))
    }

    fn cut(&self, image: &mut [u8], list: &[u64], n: u64, arrivals: &[u64]) -> u64 {
        number_of(cut(image, list, n, arrivals))
    }
}
