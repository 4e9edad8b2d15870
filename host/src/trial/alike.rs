//! "Two sound images alike in length, chain, occupied slots and entries give equal find, listing, recovery answers and
//! refusals." All else in a sound image may hold anything.
use super::run::Run;
use super::settings::Settings;
use super::universe::Universe;
use crate::answers::Made;
use crate::calls::Calls;
use crate::random::Random;
use crate::reference::image::{Chained, broken, map_of, sound_chain};
use crate::reference::leaf::{BLOCK_BYTES, Leaf, key_place, sibling_place, value_place};
use crate::reference::steps::{LIST_WORDS, Step, first_steps};

pub fn write_leaf(image: &mut [u8], block: usize, leaf: &Leaf) {
    let bytes = &mut image[BLOCK_BYTES * block..BLOCK_BYTES * (block + 1)];
    for (eight, word) in bytes.chunks_exact_mut(8).zip(leaf.words) {
        eight.copy_from_slice(&word.to_le_bytes());
    }
}

/// Random bytes wherever a sound image may hold anything; the alt bits stay.
pub fn scramble(image: &mut [u8], random: &mut Random) {
    let chain = sound_chain(image).expect("only a sound image has parts that may hold anything");
    let mut scrambled = vec![0; image.len()];
    random.fill_bytes(&mut scrambled);
    for Chained { block, mut leaf } in chain {
        for slot in leaf.vacant_slots() {
            leaf.set_word(key_place(slot), random.word());
            leaf.set_word(value_place(slot), random.word());
            leaf.mark(slot, random.word() as u8);
            leaf.clear(slot);
        }
        leaf.set_word(sibling_place(1 - leaf.alt()), random.word());
        write_leaf(&mut scrambled, block, &leaf);
    }
    image.copy_from_slice(&scrambled);
}

/// The other sibling made the active one, in some leaves.
fn swap_some_siblings(image: &mut [u8], random: &mut Random) {
    for Chained { block, mut leaf } in sound_chain(image).expect("a sound image") {
        if random.one_in(2) {
            let siblings = [sibling_place(0), sibling_place(1)].map(|place| leaf.word(place));
            leaf.set_word(sibling_place(0), siblings[1]);
            leaf.set_word(sibling_place(1), siblings[0]);
            leaf.flip_alt();
            write_leaf(image, block, &leaf);
        }
    }
}

pub fn alike_images(calls: &dyn Calls, settings: &Settings) {
    for (part, blocks) in [1, 2, 4, 9, 40].into_iter().enumerate() {
        let mut random = settings.random(part as u64);
        let universe = Universe::Wide(18 * blocks as u64);
        let mut run = Run::new(calls, settings.random(100 + part as u64), blocks, universe);
        for _ in 0..settings.times(300) {
            run.call();
            let mut other = run.image().to_vec();
            scramble(&mut other, &mut random);
            swap_some_siblings(&mut other, &mut random);
            let key = universe.key(&mut random);
            equal_answers(calls, run.image(), &other, key);
            equal_shapes(calls, run.image(), &other, key);
        }
    }
}

fn equal_answers(calls: &dyn Calls, image: &[u8], other: &[u8], key: u64) {
    assert_eq!(broken(other), []);
    assert_eq!(map_of(image), map_of(other));
    assert_eq!(calls.find(image, key), calls.find(other, key));
    let read = |image: &[u8]| {
        let (mut keys, mut values) = (vec![1; 99], vec![2; 101]);
        let listed = calls.listing(image, key, &mut keys, &mut values);
        let (mut smallest, mut blocks) = (vec![3; 256], vec![4; 256]);
        (listed, keys, values, calls.recovery(image, &mut smallest, &mut blocks), smallest, blocks)
    };
    assert_eq!(read(image), read(other));
}

/// Lists of alike images have equal answers, counts, kinds and lines; only header words and the sibling's place differ.
fn equal_shapes(calls: &dyn Calls, image: &[u8], other: &[u8], key: u64) {
    type Change<'a> = &'a dyn Fn(&[u8], &mut [u64]) -> Made;
    let put: Change = &|image, list| calls.put(image, list, key, 77);
    let set: Change = &|image, list| calls.set(image, list, key, 78);
    let del: Change = &|image, list| calls.del(image, list, key);
    for change in [put, set, del] {
        let lines = |image: &[u8]| {
            let mut list = [0; LIST_WORDS];
            let made = change(image, &mut list);
            let steps = first_steps(&list, made.steps, image.len()).expect("a list of ours is well formed");
            (made, steps.into_iter().map(line_of_step).collect::<Vec<_>>())
        };
        assert_eq!(lines(image), lines(other));
    }
}

fn line_of_step(step: Step) -> (u8, usize) {
    match step {
        Step::Store { place, .. } => (0, place / 64),
        Step::WriteBack { line } => (1, line),
        Step::Fence => (2, 0),
    }
}
