//! Document 01's bench cases, P1 to P10 and the unmarked ones.
use super::refusals::image_with;
use super::settings::Settings;
use crate::answers::Made;
use crate::calls::Calls;
use crate::reference::image::map_of;
use crate::reference::leaf::{Leaf, sibling_place};
use crate::reference::steps::{LIST_WORDS, Step, counts, first_steps};

fn made(steps: u64, line_writes: u64, word_writes: u64) -> Made {
    Made { answer: 0, steps, line_writes, word_writes }
}

fn put(calls: &dyn Calls, image: &mut [u8], key: u64) -> Made {
    let mut list = [0; LIST_WORDS];
    let made = calls.put(image, &mut list, key, 100 * key);
    let steps = first_steps(&list, made.steps, image.len()).expect("a list of ours is well formed");
    assert_eq!(made, Made { answer: made.answer, ..Ok(counts(&steps)).into() }, "the counts told are the list's own");
    assert_eq!(calls.run(image, &list, made.steps), 0);
    made
}

fn word_0(image: &[u8]) -> u64 {
    Leaf::read(image, 0).words[0]
}

/// Blank, put 1: word 0 becomes 65,537.
pub fn p1(calls: &dyn Calls, _: &Settings) {
    let mut image = vec![0; 256];
    assert_eq!(put(calls, &mut image, 1), made(5, 1, 3));
    assert_eq!(word_0(&image), 65_537);
}

/// Keys 1 to 14 put in order: 4 and 8 take 14 steps, 12 takes 12, the others 5 each; 17 line writes in all.
pub fn p2_p3(calls: &dyn Calls, _: &Settings) {
    let mut image = vec![0; 256 * 4];
    let mut line_writes = 0;
    for key in 1..=14 {
        let expected = match key {
            4 | 8 => made(14, 2, 10),
            12 => made(12, 2, 8),
            _ => made(5, 1, 3),
        };
        let made = put(calls, &mut image, key);
        assert_eq!(made, expected, "put {key}");
        line_writes += made.line_writes;
        if key == 4 {
            // 4 in slot 3, 1 to 3 moved to slots 4 to 6; the fingerprints of slots 0 to 2 are kept.
            let header = [u64::from_le_bytes([0b0111_1000, 0, 1, 2, 3, 4, 1, 2]), 3];
            assert_eq!(Leaf::read(&image, 0).words[..2], header, "the header after the first moves");
        }
    }
    assert_eq!(line_writes, 17);
    assert_eq!(word_0(&image) & 0xFFFF, 0x3FFF, "full, lock and alt 0");
}

/// Then put 15: 42 steps, 6 line writes, 34 word writes; 8 to 14 in slots 7 to 13, 15 in slot 6.
pub fn p4(calls: &dyn Calls, _: &Settings) {
    let mut image = image_with(calls, 4, 1..=14);
    let full = Leaf::read(&image, 0);
    assert_eq!(put(calls, &mut image, 15), made(42, 6, 34));
    let old = Leaf::read(&image, 0);
    assert!((old.words[0] ^ full.words[0]) < 1 << 16, "the moved entries' fingerprints are kept");
    assert_eq!(old.words[1..30], full.words[1..30], "all but bit array and siblings is kept");
    let new = Leaf::read(&image, 1);
    assert_eq!(new.occupied_slots(), [6, 7, 8, 9, 10, 11, 12, 13]);
    assert_eq!(new.keys(), [15, 8, 9, 10, 11, 12, 13, 14]);
    let mut left = old.keys();
    left.sort();
    assert_eq!(left, [1, 2, 3, 4, 5, 6, 7]);
}

/// Put 0 in its place: 47 steps, 7 line writes, 37 word writes, 0 in slot 0 of block 0.
pub fn p5(calls: &dyn Calls, _: &Settings) {
    let mut image = image_with(calls, 4, 1..=14);
    assert_eq!(put(calls, &mut image, 0), made(47, 7, 37));
    let old = Leaf::read(&image, 0);
    assert!(old.occupied(0) && old.key(0) == 0);
    assert_eq!(Leaf::read(&image, 1).keys(), [8, 9, 10, 11, 12, 13, 14]);
}

/// The same with N = 1: answer 6.
pub fn p6(calls: &dyn Calls, _: &Settings) {
    let image = image_with(calls, 1, 1..=14);
    for key in [15, 0] {
        let mut after = image.clone();
        assert_eq!(put(calls, &mut after, key), Made { answer: 6, ..Made::default() });
        assert_eq!(after, image);
    }
}

/// Del of the only entry of a second leaf: one store, at 240 or 248 of block 0.
pub fn p7(calls: &dyn Calls, _: &Settings) {
    let mut image = image_with(calls, 4, 1..=15);
    assert_eq!(unlink_second(calls, &mut image, 8..=15), 248, "block 0 was split once");
    for key in 8..=15 {
        put(calls, &mut image, key);
    }
    assert_eq!(unlink_second(calls, &mut image, 8..=15), 240, "block 0 was split twice");
}

/// Dels of these keys, all of the second leaf: the place of the last one's store.
fn unlink_second(calls: &dyn Calls, image: &mut [u8], keys: std::ops::RangeInclusive<u64>) -> usize {
    let mut list = [0; LIST_WORDS];
    let mut last = Vec::new();
    for key in keys {
        assert_eq!(calls.del(image, &mut list, key), made(3, 1, 1), "del {key}");
        assert_eq!(calls.run(image, &list, 3), 0);
        last = first_steps(&list, 3, image.len()).expect("a list of ours is well formed");
    }
    assert_eq!(map_of(image).expect("sound").len(), 7, "1 to 7 are left");
    let [Step::Store { place, value: 0 }, Step::WriteBack { line: 3 }, Step::Fence] = last[..] else {
        panic!("one store of the end of the chain in line 3 of block 0: {last:?}")
    };
    place
}

/// Sibling equal to N: answer 3. N - 1 pointing at a good leaf: sound.
pub fn p8(calls: &dyn Calls, _: &Settings) {
    for n in [2, 4, 256] {
        let mut image = image_with(calls, n, [5]);
        let last = 256 * (n - 1);
        let leaf = image_with(calls, 1, [9]);
        image[last..].copy_from_slice(&leaf);
        let active = sibling_place(0);
        image[active..active + 8].copy_from_slice(&(n as u64).to_le_bytes());
        assert_eq!(calls.find(&image, 5).answer, 3, "sibling equal to N");
        image[active..active + 8].copy_from_slice(&(n as u64 - 1).to_le_bytes());
        assert_eq!(calls.find(&image, 9).value, 900, "N - 1 at a good leaf");
        let inactive = sibling_place(1);
        image[inactive..inactive + 8].copy_from_slice(&(n as u64).to_le_bytes());
        assert_eq!(calls.find(&image, 5).value, 500, "an inactive sibling may hold anything");
    }
}

/// Key 2^64 - 1 and key 0 are ordinary keys; fingerprint 0 for both.
pub fn p9(calls: &dyn Calls, _: &Settings) {
    let mut image = vec![0; 256];
    let mut list = [0; LIST_WORDS];
    for (slot, key) in [u64::MAX, 0].into_iter().enumerate() {
        assert_eq!(calls.put(&image, &mut list, key, key.wrapping_add(7)), made(5, 1, 3));
        assert_eq!(calls.run(&mut image, &list, 5), 0);
        assert_eq!(Leaf::read(&image, 0).fingerprint(slot), 0);
        assert_eq!(calls.find(&image, key).value, key.wrapping_add(7));
    }
    assert_eq!(word_0(&image), 0b11);
    assert_eq!(map_of(&image), Some(vec![(0, 7), (u64::MAX, 6)]));
}

/// Cut with n = 0 and all arrivals 0: image unchanged.
pub fn p10(calls: &dyn Calls, settings: &Settings) {
    for blocks in [1, 4, 256] {
        let mut image = vec![0; 256 * blocks];
        settings.random(blocks as u64).fill_bytes(&mut image);
        let before = image.clone();
        assert_eq!(calls.cut(&mut image, &[], 0, &vec![0; 4 * blocks]), 0);
        assert_eq!(image, before);
    }
}

/// Steps: write-back of line 0, store to line 0, fence. Arrivals 0 for line 0: answer 10.
pub fn settled_by_an_earlier_write_back(calls: &dyn Calls, _: &Settings) {
    let steps = [Step::WriteBack { line: 0 }, Step::Store { place: 8, value: 3 }, Step::Fence];
    let list: Vec<u64> = steps.into_iter().flat_map(Step::words).collect();
    let mut image = vec![0; 256];
    assert_eq!(calls.cut(&mut image, &list, 3, &[0; 4]), 10, "the store is settled");
    assert_eq!(calls.cut(&mut image, &list, 2, &[0; 4]), 0, "before the fence nothing is settled");
    assert_eq!(image, [0; 256]);
    assert_eq!(calls.cut(&mut image, &list, 3, &[1, 0, 0, 0]), 0);
    assert_eq!(image[8], 3);
}

/// Room 111 words: 2. 112: accepted.
pub fn list_room(calls: &dyn Calls, _: &Settings) {
    let image = vec![0; 256];
    assert_eq!(calls.put(&image, &mut [0; 111], 1, 1), Made { answer: 2, ..Made::default() });
    assert_eq!(calls.put(&image, &mut [0; 112], 1, 1), made(5, 1, 3));
}

/// Run of 56 well-formed steps: accepted. n = 57: 7.
pub fn most_steps(calls: &dyn Calls, _: &Settings) {
    let list: Vec<u64> = (0..57).flat_map(|at| Step::Store { place: 8 * (at % 32), value: 1 }.words()).collect();
    let mut image = vec![0; 256];
    assert_eq!(calls.run(&mut image, &list, 57), 7);
    assert_eq!(image, [0; 256]);
    assert_eq!(calls.run(&mut image, &list, 56), 0);
    assert_eq!(image, 1u64.to_le_bytes().repeat(32));
}
