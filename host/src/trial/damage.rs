//! Damaged images: random bytes, single bits flipped, each clause of soundness broken in turn.
use super::alike::write_leaf;
use super::run::Run;
use super::settings::Settings;
use super::universe::Universe;
use crate::answers::{Found, Listed, Made, Recovered, Refusal};
use crate::calls::Calls;
use crate::random::Random;
use crate::reference::image::{Chained, Clause, blocks, broken, map_of, sound_chain};
use crate::reference::leaf::{Leaf, sibling_place};
use crate::reference::lists::{Entry, fill};

/// All calls that judge, on one image. Where it is not sound each answers 3, tells 0 and leaves its buffers.
fn judge(calls: &dyn Calls, image: &[u8], key: u64) {
    let mut list = [9; 113];
    let found = calls.find(image, key);
    let made =
        [calls.put(image, &mut list, key, 1), calls.set(image, &mut list, key, 2), calls.del(image, &mut list, key)];
    let (mut keys, mut values) = ([9; 60], [9; 61]);
    let (mut smallest, mut numbers) = (vec![9; blocks(image)], vec![9; blocks(image) + 1]);
    let listed = calls.listing(image, key, &mut keys, &mut values);
    let recovered = calls.recovery(image, &mut smallest, &mut numbers);
    if let Some(entries) = map_of(image) {
        let value = entries.iter().find(|entry| entry.0 == key).map(|entry| entry.1);
        let count = entries.iter().filter(|entry| entry.0 >= key).count().min(keys.len());
        assert_eq!(found, value.ok_or(Refusal::KeyAbsent).into(), "find in a sound image");
        assert_eq!(listed, Listed { answer: 0, count: count as u64 }, "listing of a sound image");
        assert_eq!((recovered.answer, recovered.entries), (0, entries.len() as u64), "recovery of a sound image");
        let fits: [&[u64]; 3] = if value.is_some() { [&[4], &[0], &[0]] } else { [&[0, 6], &[5], &[5]] };
        assert!(made.iter().zip(fits).all(|(made, fits)| fits.contains(&made.answer)), "changes of a sound image");
    } else {
        assert_eq!(found, Found { answer: 3, value: 0 }, "find in an image that is not sound");
        assert_eq!(made, [Made { answer: 3, ..Made::default() }; 3], "changes of an image that is not sound");
        assert_eq!(listed, Listed { answer: 3, count: 0 }, "listing of an image that is not sound");
        assert_eq!(recovered, Recovered { answer: 3, leaves: 0, entries: 0 }, "recovery of an image that is not sound");
        let mut words = list.iter().chain(&keys).chain(&values).chain(&smallest).chain(&numbers);
        assert!(words.all(|&word| word == 9), "a refusal changes no buffer");
    }
}

/// A sound image some way into a run, with a key that is often present.
fn sound_image(calls: &dyn Calls, settings: &Settings, part: u64, blocks: usize) -> (Vec<u8>, u64) {
    let mut random = settings.random(part);
    let universe = random.pick(&[
        Universe::Wide(20 * blocks as u64),
        Universe::Dense(20 * blocks as u64),
        Universe::AllAlike(20 * blocks as u64),
    ]);
    let mut run = Run::new(calls, settings.random(1 << 32 | part), blocks, universe);
    for _ in 0..10 + random.index(20 * blocks) {
        run.call();
    }
    let image = run.image().to_vec();
    let entries = map_of(&image).expect("between calls the image is sound");
    let key = if entries.is_empty() { universe.key(&mut random) } else { random.pick(&entries).0 };
    (image, key)
}

pub fn random_bytes(calls: &dyn Calls, settings: &Settings) {
    let mut random = settings.random(0);
    let total = settings.times(20_000);
    for done in 0..total {
        settings.progress(done, total);
        let mut image = vec![0; 256 * random.pick(&[1, 1, 2, 3, 4, 7, 256])];
        random.fill_bytes(&mut image);
        if random.one_in(2) {
            tame(&mut image, &mut random);
        }
        let key = u64::from_le_bytes(image[16..24].try_into().expect("eight bytes"));
        judge(calls, &image, key);
    }
}

/// Random leaves that come closer to soundness: right fingerprints, no lock, small siblings, few entries.
fn tame(image: &mut [u8], random: &mut Random) {
    for block in 0..blocks(image) {
        let mut leaf = Leaf::read(image, block);
        leaf.words[0] &= !(1 << 14) & !(random.word() & 0x3FFF);
        for slot in leaf.occupied_slots() {
            let key = leaf.key(slot) >> 8 | (block as u64) << 56;
            fill(&mut leaf, slot, Entry { key, value: random.word() });
        }
        let next = if random.one_in(3) { 0 } else { block as u64 + 1 };
        leaf.set_word(sibling_place(leaf.alt()), next);
        write_leaf(image, block, &leaf);
    }
}

/// Each bit of small images, and some of large ones.
pub fn single_bits(calls: &dyn Calls, settings: &Settings) {
    let total = settings.times(8);
    for part in 0..total {
        settings.progress(part, total);
        let blocks = [1, 2, 3, 4][part as usize % 4];
        let (mut image, key) = sound_image(calls, settings, part, blocks);
        for bit in 0..8 * image.len() {
            image[bit / 8] ^= 1 << (bit % 8);
            judge(calls, &image, key);
            image[bit / 8] ^= 1 << (bit % 8);
        }
    }
    for part in 0..settings.times(2) {
        let (mut image, key) = sound_image(calls, settings, 1_000_000 + part, 200);
        let mut random = settings.random(2_000_000 + part);
        for _ in 0..200 {
            let bit = random.index(8 * image.len());
            image[bit / 8] ^= 1 << (bit % 8);
            judge(calls, &image, key);
            image[bit / 8] ^= 1 << (bit % 8);
        }
    }
}

pub fn each_clause(calls: &dyn Calls, settings: &Settings) {
    let mut times = [0; 7];
    let total = settings.times(120);
    for part in 0..total {
        settings.progress(part, total);
        let blocks = if part % 60 == 59 { 256 } else { [1, 2, 3, 5, 8, 21][part as usize % 6] };
        let (image, key) = sound_image(calls, settings, part, blocks);
        let mut random = settings.random(3_000_000 + part);
        for (at, clause) in Clause::ALL.into_iter().enumerate() {
            for _ in 0..8 {
                let Some(damaged) = with_broken(&image, clause, &mut random) else { continue };
                assert_eq!(broken(&damaged), [clause], "only this clause is broken");
                judge(calls, &damaged, key);
                times[at] += 1;
            }
        }
    }
    assert!(times.iter().all(|&times| times > 100), "each clause was broken often: {times:?}");
}

/// A sound image with this one clause broken somewhere, where that can be done.
fn with_broken(image: &[u8], clause: Clause, random: &mut Random) -> Option<Vec<u8>> {
    let mut chain = sound_chain(image).expect("a sound image");
    chain.truncate(1 + random.index(chain.len()));
    let Chained { block, mut leaf } = chain.pop()?;
    let mut damaged = image.to_vec();
    match clause {
        Clause::NoneEmptyButBlockZero if block == 0 => return None,
        Clause::NoBlockTwice => {
            let met = chain.iter().map(|chained| chained.block).chain([block]).filter(|&block| block != 0);
            let again = pick_some(&met.collect::<Vec<_>>(), random)?;
            leaf.set_word(sibling_place(leaf.alt()), again as u64);
        }
        Clause::AboveEarlier => {
            let earlier: Vec<u64> = chain.iter().flat_map(|chained| chained.leaf.keys()).collect();
            let (slot, highest) = (pick_some(&leaf.occupied_slots(), random)?, *earlier.iter().max()?);
            let any_earlier = random.pick(&earlier);
            let key = random.pick(&[highest, highest.saturating_sub(1), any_earlier]);
            fill(&mut leaf, slot, Entry { key, value: random.word() });
        }
        _ => break_within(&mut leaf, clause, blocks(image) as u64, random)?,
    }
    write_leaf(&mut damaged, block, &leaf);
    Some(damaged).filter(|damaged| damaged[..] != *image)
}

/// A leaf of an image of n blocks with a clause broken that looks at no other leaf.
fn break_within(leaf: &mut Leaf, clause: Clause, n: u64, random: &mut Random) -> Option<()> {
    let slots = leaf.occupied_slots();
    match clause {
        Clause::LockZero => leaf.words[0] |= 1 << 14,
        Clause::SiblingBelowN => {
            let sibling = random.pick(&[n, n + 1, 256 + n, 1 << 32, 1 << 32 | 1, 1 << 63, u64::MAX]);
            leaf.set_word(sibling_place(leaf.alt()), sibling);
        }
        Clause::OwnFingerprint => {
            let slot = pick_some(&slots, random)?;
            leaf.mark(slot, leaf.fingerprint(slot) ^ (1 << random.below(8)));
        }
        Clause::KeysDiffer => {
            let (from, to) = (pick_some(&slots, random)?, pick_some(&slots, random)?);
            if from == to {
                return None;
            }
            let key = leaf.key(from);
            fill(leaf, to, Entry { key, value: random.word() });
        }
        Clause::NoneEmptyButBlockZero => leaf.words[0] &= !0x3FFF,
        Clause::NoBlockTwice | Clause::AboveEarlier => unreachable!("these look at other leaves"),
    }
    Some(())
}

fn pick_some<T: Copy>(from: &[T], random: &mut Random) -> Option<T> {
    (!from.is_empty()).then(|| random.pick(from))
}
