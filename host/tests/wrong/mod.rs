//! Implementations that are wrong in one way each: the reference with one call, or one part of a call, put in its place.
use std::ops::RangeInclusive;
use stringhut::answers::{Found, Listed, Made, Recovered};
use stringhut::reference::Reference;
use stringhut::reference::image::{sound_chain, target};
use stringhut::reference::leaf::{ALT_BIT, Leaf, SLOTS};
use stringhut::reference::memory::{self, Permitted, lines};
use stringhut::reference::steps::{self, Step, counts, first_steps};
use stringhut::{Calls, Refusal};

/// The eight calls as functions, so that a wrong one can be named in a line.
#[derive(Clone, Copy)]
pub struct Wrong {
    pub find: fn(&[u8], u64) -> Found,
    pub put: fn(&[u8], &mut [u64], u64, u64) -> Made,
    pub set: fn(&[u8], &mut [u64], u64, u64) -> Made,
    pub del: fn(&[u8], &mut [u64], u64) -> Made,
    pub listing: fn(&[u8], u64, &mut [u64], &mut [u64]) -> Listed,
    pub recovery: fn(&[u8], &mut [u64], &mut [u64]) -> Recovered,
    pub run: fn(&mut [u8], &[u64], u64) -> u64,
    pub cut: fn(&mut [u8], &[u64], u64, &[u64]) -> u64,
}

/// Nothing wrong yet.
pub const RIGHT: Wrong = Wrong {
    find: |image, key| Reference.find(image, key),
    put: |image, list, key, value| Reference.put(image, list, key, value),
    set: |image, list, key, value| Reference.set(image, list, key, value),
    del: |image, list, key| Reference.del(image, list, key),
    listing: |image, from, keys, values| Reference.listing(image, from, keys, values),
    recovery: |image, smallest, blocks| Reference.recovery(image, smallest, blocks),
    run: |image, list, n| Reference.run(image, list, n),
    cut: |image, list, n, arrivals| Reference.cut(image, list, n, arrivals),
};

impl Calls for Wrong {
    fn find(&self, image: &[u8], key: u64) -> Found {
        (self.find)(image, key)
    }

    fn put(&self, image: &[u8], list: &mut [u64], key: u64, value: u64) -> Made {
        (self.put)(image, list, key, value)
    }

    fn set(&self, image: &[u8], list: &mut [u64], key: u64, value: u64) -> Made {
        (self.set)(image, list, key, value)
    }

    fn del(&self, image: &[u8], list: &mut [u64], key: u64) -> Made {
        (self.del)(image, list, key)
    }

    fn listing(&self, image: &[u8], from: u64, keys: &mut [u64], values: &mut [u64]) -> Listed {
        (self.listing)(image, from, keys, values)
    }

    fn recovery(&self, image: &[u8], smallest: &mut [u64], blocks: &mut [u64]) -> Recovered {
        (self.recovery)(image, smallest, blocks)
    }

    fn run(&self, image: &mut [u8], list: &[u64], n: u64) -> u64 {
        (self.run)(image, list, n)
    }

    fn cut(&self, image: &mut [u8], list: &[u64], n: u64, arrivals: &[u64]) -> u64 {
        (self.cut)(image, list, n, arrivals)
    }
}

/// A put's, set's or del's counts told wrongly where it is accepted.
pub fn told(made: Made, wrong: fn(&mut Made)) -> Made {
    let mut told = made;
    if made.answer == 0 {
        wrong(&mut told);
    }
    told
}

/// An accepted list with its steps edited, and the counts of what it then is; a refusal as it was.
pub fn edited(
    image: &[u8],
    list: &mut [u64],
    right: impl Fn(&mut [u64]) -> Made,
    edit: impl Fn(&mut Vec<Step>),
) -> Made {
    let mut words = list.to_vec();
    let made = right(&mut words);
    if made.answer != 0 {
        return made;
    }
    let mut steps = first_steps(&words, made.steps, image.len()).expect("the reference's list");
    edit(&mut steps);
    steps::write(&steps, list);
    Ok(counts(&steps)).into()
}

pub fn put_with(edit: fn(&mut Vec<Step>), image: &[u8], list: &mut [u64], key: u64, value: u64) -> Made {
    edited(image, list, |list| Reference.put(image, list, key, value), edit)
}

pub fn del_with(edit: fn(&mut Vec<Step>), image: &[u8], list: &mut [u64], key: u64) -> Made {
    edited(image, list, |list| Reference.del(image, list, key), edit)
}

/// Refusal 6 for a put that is accepted, where this is true of the image and of how many steps the put takes.
pub fn put_unless(full: fn(&[u8], u64) -> bool, image: &[u8], list: &mut [u64], key: u64, value: u64) -> Made {
    let made = Reference.put(image, &mut list.to_vec(), key, value);
    if made.answer == 0 && full(image, made.steps) {
        return Err(Refusal::NoBlockLeft).into();
    }
    Reference.put(image, list, key, value)
}

/// Where the reference says absent: the value in the target leaf's first slot that this takes for the key's.
pub fn find_with(alike: fn(&Leaf, usize, u64) -> bool, image: &[u8], key: u64) -> Found {
    let found = Reference.find(image, key);
    if found.answer != Refusal::KeyAbsent.number() {
        return found;
    }
    let chain = sound_chain(image).expect("a sound image");
    let leaf = chain[target(&chain, key)].leaf;
    let slot = (0..SLOTS).find(|&slot| alike(&leaf, slot, key));
    slot.map_or(found, |slot| Found { answer: 0, value: leaf.value(slot) })
}

/// A run of other steps where the right ones are accepted.
pub fn run_with(edit: fn(&mut Vec<Step>), image: &mut [u8], list: &[u64], n: u64) -> u64 {
    let answer = Reference.run(&mut image.to_vec(), list, n);
    if answer == 0 {
        let mut steps = first_steps(list, n, image.len()).expect("accepted");
        edit(&mut steps);
        memory::run(image, &steps);
    }
    answer
}

/// A cut with other arrivals where the right ones are permitted; they are made line by line from what is permitted.
pub fn cut_with(other: fn(u64, u64, u64) -> u64, image: &mut [u8], list: &[u64], n: u64, arrivals: &[u64]) -> u64 {
    let answer = Reference.cut(&mut image.to_vec(), list, n, arrivals);
    if answer == 0 {
        let steps = first_steps(list, n, image.len()).expect("accepted");
        let Permitted { settled, made } = Permitted::after(&steps, lines(image));
        let other = (0..lines(image)).map(|line| other(settled[line], arrivals[line], made[line]));
        memory::cut(image, &steps, &other.collect::<Vec<_>>());
    }
    answer
}

/// A cut that is not permitted, and is made where this says so of every line's settled, arrived and made stores.
pub fn cut_if(allows: fn(u64, u64, u64) -> bool, image: &mut [u8], list: &[u64], n: u64, arrivals: &[u64]) -> u64 {
    let answer = Reference.cut(image, list, n, arrivals);
    if answer != Refusal::BadArrivals.number() || arrivals.len() != lines(image) {
        return answer;
    }
    let steps = first_steps(list, n, image.len()).expect("refusal 7 comes before");
    let Permitted { settled, made } = Permitted::after(&steps, lines(image));
    if !(0..lines(image)).all(|line| allows(settled[line], arrivals[line], made[line])) {
        return answer;
    }
    memory::cut(image, &steps, arrivals);
    0
}

fn is_store(step: &Step) -> bool {
    matches!(step, Step::Store { .. })
}

fn is_write_back(step: &Step) -> bool {
    matches!(step, Step::WriteBack { .. })
}

pub fn without_last_store(steps: &mut Vec<Step>) {
    if let Some(at) = steps.iter().rposition(is_store) {
        steps.remove(at);
    }
}

pub fn without_first_write_back(steps: &mut Vec<Step>) {
    if let Some(at) = steps.iter().position(is_write_back) {
        steps.remove(at);
    }
}

pub fn bare_fences(steps: &mut Vec<Step>) {
    steps.retain(|step| !is_write_back(step));
}

/// All stores in the first section.
pub fn stores_first(steps: &mut [Step]) {
    steps.sort_by_key(|step| !is_store(step));
}

/// Document 01: "Word 0 stored before word 1".
pub fn word_0_first(steps: &mut [Step]) {
    for at in 1..steps.len() {
        let [Step::Store { place: first, .. }, Step::Store { place: second, .. }] = steps[at - 1..=at] else {
            continue;
        };
        if first % 256 == 8 && second % 256 == 0 {
            steps.swap(at - 1, at);
        }
    }
}

/// Document 01: "or before the copies are settled": the last section of a put past line 0 comes first.
pub fn header_first(steps: &mut [Step]) {
    if (8..=14).contains(&steps.len()) {
        steps.rotate_right(4);
    }
}

/// Document 01's correction to 001: key and value stored in the old leaf before its header is switched.
pub fn put_before_the_switch(steps: &mut [Step]) {
    if steps.len() > 42 {
        steps[39..44].rotate_left(3);
    }
}

/// Document 01: "The split's new leaf linked through the active sibling"; alt is then not flipped.
pub fn linked_through_the_active_sibling(steps: &mut [Step]) {
    if steps.len() < 42 {
        return;
    }
    for (at, step) in steps.iter_mut().enumerate().skip(32) {
        match step {
            Step::Store { place, .. } if at == 32 => *place ^= 8,
            Step::Store { place, value } if *place % 256 == 0 => *value ^= 1 << ALT_BIT,
            _ => (),
        }
    }
}

/// Six more write-backs of the last line, where the list has room for them.
pub fn six_more_line_writes(steps: &mut Vec<Step>) {
    let at = steps.len() - 2;
    if steps.len() <= 50 {
        steps.splice(at..at, [steps[at]; 6]);
    }
}

/// In lists of so many steps: the fingerprints of the slots that the last store of word 0 leaves vacant are cleared.
pub fn cleared_in_word_0(steps: &mut [Step], lengths: RangeInclusive<usize>) {
    let word_0 = |step: &&mut Step| matches!(step, Step::Store { place, .. } if place % 256 == 0);
    if !lengths.contains(&steps.len()) {
        return;
    }
    if let Some(Step::Store { value, .. }) = steps.iter_mut().rev().find(word_0) {
        let vacant = (0..6).filter(|slot| *value >> slot & 1 == 0);
        *value &= vacant.fold(u64::MAX, |kept, slot| kept & !(0xFF << (16 + 8 * slot)));
    }
}
