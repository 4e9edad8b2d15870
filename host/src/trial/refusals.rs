//! Refusals in document 01's order, with several conditions at once: the answer is the number of the first that holds.
use super::settings::Settings;
use crate::answers::Made;
use crate::calls::Calls;
use crate::reference::leaf::sibling_place;
use crate::reference::steps::{LIST_WORDS, Step};

/// The number of the first condition that holds, in the given order; 0 where none does.
fn first(conditions: &[(u64, bool)]) -> u64 {
    conditions.iter().find(|(_, holds)| *holds).map_or(0, |&(number, _)| number)
}

/// An image with a key that is present and one that is absent, and what is wrong with it.
struct Scene {
    image: Vec<u8>,
    present: Option<u64>,
    absent: u64,
    bad_length: bool,
    unsound: bool,
    full: bool,
}

/// A blank image of so many blocks with these keys put.
pub fn image_with(calls: &dyn Calls, blocks: usize, keys: impl IntoIterator<Item = u64>) -> Vec<u8> {
    let mut image = vec![0; 256 * blocks];
    let mut list = [0; LIST_WORDS];
    for key in keys {
        let made = calls.put(&image, &mut list, key, 100 * key);
        assert_eq!(calls.run(&mut image, &list, made.steps), 0);
        assert_eq!(made.answer, 0, "put {key}");
    }
    image
}

fn sound_scenes(calls: &dyn Calls) -> Vec<Scene> {
    let scene = |blocks, keys: std::ops::Range<u64>, full| Scene {
        image: image_with(calls, blocks, keys.clone()),
        present: keys.clone().last(),
        absent: keys.end,
        bad_length: false,
        unsound: false,
        full,
    };
    vec![
        scene(1, 5..5, false),
        scene(1, 5..8, false),
        scene(1, 1..15, true),
        scene(2, 1..15, false),
        // Block 0 holds 1 to 7; block 1 is full with 8 to 21.
        scene(2, 1..22, true),
        scene(256, 0..60, false),
    ]
}

/// Each sound scene, the same with a broken clause, and both at lengths that are refused.
fn scenes(calls: &dyn Calls) -> Vec<Scene> {
    let mut all = Vec::new();
    for sound in sound_scenes(calls) {
        let mut damaged = sound.image.clone();
        damaged[1] ^= 1 << 6;
        for length in [0, 1, 255, 257, sound.image.len() + 8, 65_535, 65_537, 65_792, 131_072] {
            for image in [&sound.image, &damaged] {
                let mut image = image.clone();
                image.resize(length, 0);
                all.push(Scene { image, bad_length: true, ..sound });
            }
        }
        all.push(Scene { image: damaged, unsound: true, ..sound });
        all.push(sound);
    }
    all
}

pub fn reads_and_changes(calls: &dyn Calls, _: &Settings) {
    for scene in scenes(calls) {
        let keys = scene.present.map(|key| (key, true)).into_iter().chain([(scene.absent, false)]);
        for (key, present) in keys {
            reads(calls, &scene, key, present);
            for room in [0, 1, 111, 112, 113, 300] {
                changes(calls, &scene, key, present, room);
            }
        }
        for short in [0b00, 0b01, 0b10, 0b11] {
            recovery(calls, &scene, short);
        }
    }
}

fn reads(calls: &dyn Calls, scene: &Scene, key: u64, present: bool) {
    let Scene { ref image, bad_length, unsound, .. } = *scene;
    let found = calls.find(image, key);
    let expected = first(&[(1, bad_length), (3, unsound), (5, !present)]);
    let value = if expected == 0 { 100 * key } else { 0 };
    assert_eq!((found.answer, found.value), (expected, value), "find");
    for (keys_len, values_len) in [(0, 0), (0, 5), (5, 0), (5, 5)] {
        let (mut keys, mut values) = (vec![8; keys_len], vec![9; values_len]);
        let listed = calls.listing(image, key, &mut keys, &mut values);
        let expected = first(&[(1, bad_length), (3, unsound)]);
        let count = u64::from(expected == 0 && present && keys_len.min(values_len) > 0);
        assert_eq!((listed.answer, listed.count), (expected, count), "listing");
        assert!(count == 0 || (keys[0], values[0]) == (key, 100 * key), "listing's entry");
        assert!(keys[count as usize..].iter().all(|&word| word == 8), "keys past the count stay");
        assert!(values[count as usize..].iter().all(|&word| word == 9), "values past the count stay");
    }
}

fn changes(calls: &dyn Calls, scene: &Scene, key: u64, present: bool, room: usize) {
    let Scene { ref image, bad_length, unsound, full, .. } = *scene;
    let all = [(1, bad_length), (2, room < 112), (3, unsound)];
    let [put, set] =
        [first(&[&all[..], &[(4, present), (6, full)]].concat()), first(&[&all[..], &[(5, !present)]].concat())];
    let check = |expected: u64, call: &dyn Fn(&mut [u64]) -> Made| {
        let mut list = vec![9; room];
        let made = call(&mut list);
        assert_eq!(made.answer, expected, "room {room}");
        if expected != 0 {
            assert_eq!(made, Made { answer: expected, ..Made::default() }, "a refusal tells 0 for every count");
            assert!(list.iter().all(|&word| word == 9), "a refusal changes no buffer");
        }
    };
    check(put, &|list| calls.put(image, list, key, 1));
    check(set, &|list| calls.set(image, list, key, 1));
    check(set, &|list| calls.del(image, list, key));
}

fn recovery(calls: &dyn Calls, scene: &Scene, short: usize) {
    let Scene { ref image, bad_length, unsound, .. } = *scene;
    let blocks = (image.len() / 256).max(1);
    let (mut smallest, mut numbers) = (vec![8; blocks - (short & 1)], vec![9; blocks - (short >> 1)]);
    let recovered = calls.recovery(image, &mut smallest, &mut numbers);
    let expected = first(&[(1, bad_length), (8, short != 0), (3, unsound)]);
    assert_eq!(recovered.answer, expected, "recovery's answer");
    if expected != 0 {
        assert_eq!((recovered.leaves, recovered.entries), (0, 0), "a refusal tells 0 for every count");
        assert!(smallest.iter().all(|&word| word == 8) && numbers.iter().all(|&word| word == 9));
    }
}

/// Words that are no step of an image of one block.
const MALFORMED: [[u64; 2]; 16] = [
    [1, 0],
    [4, 0],
    [7, 0],
    [249, 0],
    [256, 0],
    [264, 0],
    [65_536, 0],
    [(1 << 32) - 8, 0],
    [1 << 32, 1],
    [(1 << 32) + 4, 0],
    [(1 << 32) + 1024, 0],
    [(1 << 33) - 1, 0],
    [1 << 33, 1],
    [(1 << 33) + 1, 0],
    [1 << 34, 0],
    [u64::MAX, 0],
];

/// Three steps of an image of one block: its line 3 has one settled store of one.
fn three_steps() -> Vec<u64> {
    let place = sibling_place(0);
    let steps = [Step::Store { place, value: 6 }, Step::WriteBack { line: 3 }, Step::Fence];
    steps.into_iter().flat_map(Step::words).collect()
}

pub fn run_and_cut(calls: &dyn Calls, _: &Settings) {
    let good = three_steps();
    let mut lists = vec![(good.clone(), false)];
    for pair in MALFORMED {
        let mut behind = good.clone();
        behind.extend(pair);
        lists.push((behind, false));
        for at in [0, 2, 4] {
            let mut bad = good.clone();
            bad[at..at + 2].copy_from_slice(&pair);
            lists.push((bad, true));
        }
    }
    for bytes in [0, 1, 255, 256, 257, 65_537, 65_792] {
        for (list, malformed) in &lists {
            for n in [3, 4, 56, 57, 58, 1 << 32, 1 << 63, u64::MAX] {
                let bad_length = bytes != 256;
                let bad_steps = n != 3 && (n > 56 || list.len() as u64 / 2 < n || list.len() > 6);
                refuse_or_take(calls, bytes, list, n, bad_length, bad_steps || *malformed);
            }
        }
    }
}

fn refuse_or_take(calls: &dyn Calls, bytes: usize, list: &[u64], n: u64, bad_length: bool, bad_steps: bool) {
    let image = vec![5; bytes];
    let mut after = image.clone();
    after.splice(240.min(bytes)..248.min(bytes), 6u64.to_le_bytes());
    let expected = first(&[(1, bad_length), (7, bad_steps)]);
    let left = |answer: u64| if answer == 0 { &after } else { &image };
    let mut run = image.clone();
    assert_eq!(calls.run(&mut run, list, n), expected, "run of {n} from {list:?} over {bytes} bytes");
    assert_eq!(run, *left(expected), "what a run leaves");
    let arrivals: [(&[u64], bool); 8] = [
        (&[0, 0, 0, 1], false),
        (&[0, 0, 0, 0], true),
        (&[0, 0, 0, 2], true),
        (&[1, 0, 0, 1], true),
        (&[0, 0, 0, u64::MAX], true),
        (&[0, 0, 0], true),
        (&[0, 0, 0, 1, 0], true),
        (&[], true),
    ];
    for (arrivals, bad_arrivals) in arrivals {
        let expected = first(&[(1, bad_length), (7, bad_steps), (10, bad_arrivals)]);
        let mut cut = image.clone();
        assert_eq!(calls.cut(&mut cut, list, n, arrivals), expected, "cut of {n} with {arrivals:?}");
        assert_eq!(cut, *left(expected), "what a cut leaves");
    }
}
