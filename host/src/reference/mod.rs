//! The independent reference, written from document 01 alone: plain and obvious before all else, since it judges.
pub mod image;
pub mod leaf;
pub mod lists;
pub mod memory;
pub mod program;
pub mod steps;

use crate::answers::{Counts, Found, Listed, Made, Recovered, Refusal, Tree, number_of};
use crate::calls::Calls;
use image::{Chained, blocks, good_length, sound_chain, target};
use lists::Entry;
use memory::{Permitted, lines};
use steps::{LIST_WORDS, Step, first_steps};

/// The reference as an implementation of the eight calls.
#[derive(Clone, Copy, Debug)]
pub struct Reference;

fn chain_of(image: &[u8]) -> Result<Vec<Chained>, Refusal> {
    sound_chain(image).ok_or(Refusal::NotSound)
}

fn check_length(image: &[u8]) -> Result<(), Refusal> {
    if good_length(image) { Ok(()) } else { Err(Refusal::ImageLength) }
}

fn check_room(list: &[u64]) -> Result<(), Refusal> {
    if list.len() >= LIST_WORDS { Ok(()) } else { Err(Refusal::ListRoom) }
}

pub fn find(image: &[u8], key: u64) -> Result<u64, Refusal> {
    check_length(image)?;
    let chain = chain_of(image)?;
    let leaf = &chain[target(&chain, key)].leaf;
    let slot = leaf.slot_of(key).ok_or(Refusal::KeyAbsent)?;
    Ok(leaf.value(slot))
}

/// The steps of a put, where refusals 1 and 2 do not apply.
pub fn put_steps(image: &[u8], key: u64, value: u64) -> Result<Vec<Step>, Refusal> {
    let chain = chain_of(image)?;
    let Chained { block, leaf } = &chain[target(&chain, key)];
    if leaf.slot_of(key).is_some() {
        return Err(Refusal::KeyPresent);
    }
    let entry = Entry { key, value };
    if !leaf.vacant_slots().is_empty() {
        return Ok(lists::plain_put(*block, leaf, entry));
    }
    let fresh = lowest_unchained(image, &chain).ok_or(Refusal::NoBlockLeft)?;
    Ok(lists::split_put(*block, leaf, fresh, entry))
}

/// "The lowest block not in the chain."
pub fn lowest_unchained(image: &[u8], chain: &[Chained]) -> Option<usize> {
    (0..blocks(image)).find(|&block| chain.iter().all(|chained| chained.block != block))
}

pub fn set_steps(image: &[u8], key: u64, value: u64) -> Result<Vec<Step>, Refusal> {
    let chain = chain_of(image)?;
    let Chained { block, leaf } = &chain[target(&chain, key)];
    let slot = leaf.slot_of(key).ok_or(Refusal::KeyAbsent)?;
    Ok(lists::set(*block, slot, value))
}

pub fn del_steps(image: &[u8], key: u64) -> Result<Vec<Step>, Refusal> {
    let chain = chain_of(image)?;
    let position = target(&chain, key);
    let slot = chain[position].leaf.slot_of(key).ok_or(Refusal::KeyAbsent)?;
    Ok(lists::del(&chain, position, slot))
}

/// Writes the list that `make` gives, after refusals 1 and 2.
fn write_list(
    image: &[u8],
    list: &mut [u64],
    make: impl Fn(&[u8]) -> Result<Vec<Step>, Refusal>,
) -> Result<Counts, Refusal> {
    check_length(image)?;
    check_room(list)?;
    let steps = make(image)?;
    steps::write(&steps, list);
    Ok(steps::counts(&steps))
}

pub fn listing(image: &[u8], from: u64, keys: &mut [u64], values: &mut [u64]) -> Result<u64, Refusal> {
    check_length(image)?;
    let entries = image::entries(&chain_of(image)?);
    let wanted = entries.into_iter().filter(|&(key, _)| key >= from);
    let mut count = 0;
    for ((key, value), (key_out, value_out)) in wanted.zip(keys.iter_mut().zip(values)) {
        (*key_out, *value_out) = (key, value);
        count += 1;
    }
    Ok(count)
}

pub fn recovery(image: &[u8], smallest: &mut [u64], numbers: &mut [u64]) -> Result<Tree, Refusal> {
    check_length(image)?;
    if smallest.len() < blocks(image) || numbers.len() < blocks(image) {
        return Err(Refusal::BufferRoom);
    }
    let chain = chain_of(image)?;
    for (at, Chained { block, leaf }) in chain.iter().enumerate() {
        smallest[at] = leaf.smallest().unwrap_or(0);
        numbers[at] = *block as u64;
    }
    Ok(Tree { leaves: chain.len() as u64, entries: image::entries(&chain).len() as u64 })
}

fn taken(image: &[u8], list: &[u64], n: u64) -> Result<Vec<Step>, Refusal> {
    check_length(image)?;
    first_steps(list, n, image.len()).ok_or(Refusal::BadSteps)
}

pub fn run(image: &mut [u8], list: &[u64], n: u64) -> Result<(), Refusal> {
    let steps = taken(image, list, n)?;
    memory::run(image, &steps);
    Ok(())
}

pub fn cut(image: &mut [u8], list: &[u64], n: u64, arrivals: &[u64]) -> Result<(), Refusal> {
    let steps = taken(image, list, n)?;
    if !Permitted::after(&steps, lines(image)).allows(arrivals) {
        return Err(Refusal::BadArrivals);
    }
    memory::cut(image, &steps, arrivals);
    Ok(())
}

impl Calls for Reference {
    fn find(&self, image: &[u8], key: u64) -> Found {
        find(image, key).into()
    }

    fn put(&self, image: &[u8], list: &mut [u64], key: u64, value: u64) -> Made {
        write_list(image, list, |image| put_steps(image, key, value)).into()
    }

    fn set(&self, image: &[u8], list: &mut [u64], key: u64, value: u64) -> Made {
        write_list(image, list, |image| set_steps(image, key, value)).into()
    }

    fn del(&self, image: &[u8], list: &mut [u64], key: u64) -> Made {
        write_list(image, list, |image| del_steps(image, key)).into()
    }

    fn listing(&self, image: &[u8], from: u64, keys: &mut [u64], values: &mut [u64]) -> Listed {
        listing(image, from, keys, values).into()
    }

    fn recovery(&self, image: &[u8], smallest: &mut [u64], blocks: &mut [u64]) -> Recovered {
        recovery(image, smallest, blocks).into()
    }

    fn run(&self, image: &mut [u8], list: &[u64], n: u64) -> u64 {
        number_of(run(image, list, n))
    }

    fn cut(&self, image: &mut [u8], list: &[u64], n: u64, arrivals: &[u64]) -> u64 {
        number_of(cut(image, list, n, arrivals))
    }
}
