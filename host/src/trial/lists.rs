//! Run and cut on lists of any steps over any image: they need no sound image and no list of ours.
use super::cuts::some_arrivals;
use super::settings::Settings;
use crate::calls::Calls;
use crate::random::Random;
use crate::reference::memory::{self, Permitted, lines};
use crate::reference::steps::{Step, first_steps};

/// A well-formed step, crowded on few lines so that stores, write-backs and fences meet.
fn some_step(bytes: usize, crowd: usize, random: &mut Random) -> Step {
    let lines = (bytes / 64).min(crowd);
    let line = (bytes / 64 - lines) * random.index(2) + random.index(lines);
    match random.below(8) {
        0 => Step::Fence,
        1 | 2 => Step::WriteBack { line },
        _ => Step::Store { place: 64 * line + 8 * random.index(8), value: random.word() },
    }
}

/// Mostly well formed; now and then one pair with a bit flipped or a word replaced.
fn some_list(bytes: usize, steps: usize, random: &mut Random) -> Vec<u64> {
    let crowd = random.pick(&[1, 2, 4, 1024]);
    let mut list: Vec<u64> = (0..steps).flat_map(|_| some_step(bytes, crowd, random).words()).collect();
    if steps > 0 && random.one_in(3) {
        let at = random.index(list.len());
        list[at] = match random.below(3) {
            0 => list[at] ^ 1 << random.below(64),
            1 => random.pick(&[bytes as u64, (1 << 32) + bytes as u64 / 64, 1 << 33, 1 << 34, 0, u64::MAX]),
            _ => random.word(),
        };
    }
    if random.one_in(10) {
        list.pop();
    }
    list
}

pub fn any_steps(calls: &dyn Calls, settings: &Settings) {
    let mut random = settings.random(0);
    let total = settings.times(60_000);
    let mut answers = [0u64; 11];
    for done in 0..total {
        settings.progress(done, total);
        let mut image = vec![0; 256 * random.pick(&[1, 1, 1, 2, 2, 3, 256])];
        random.fill_bytes(&mut image[..256]);
        let steps = if random.one_in(4) { 56 } else { random.index(60) };
        let list = some_list(image.len(), steps, &mut random);
        let n = if random.one_in(2) { steps as u64 } else { random.below(60) };
        let (run_answer, cut_answer) = run_then_cut(calls, &image, &list, n, &mut random);
        answers[run_answer as usize] += 1;
        answers[cut_answer as usize] += 1;
    }
    assert!([0, 7, 10].iter().all(|&number| answers[number] > total / 50), "all answers are met: {answers:?}");
}

fn run_then_cut(calls: &dyn Calls, image: &[u8], list: &[u64], n: u64, random: &mut Random) -> (u64, u64) {
    let mut run = image.to_vec();
    let run_answer = calls.run(&mut run, list, n);
    let Some(steps) = first_steps(list, n, image.len()) else {
        let mut cut = image.to_vec();
        assert_eq!(run_answer, 7, "a run of malformed steps");
        assert_eq!(calls.cut(&mut cut, list, n, &vec![0; lines(image)]), 7, "a cut of malformed steps");
        assert!(run == image && cut == image, "a refusal changes no buffer");
        return (7, 7);
    };
    assert_eq!(run_answer, 0, "a run of well-formed steps");
    let permitted = Permitted::after(&steps, lines(image));
    assert!(run == line_by_line(image, &steps, &permitted.made), "a run makes all stores, in order");
    let mut whole = image.to_vec();
    assert_eq!(calls.cut(&mut whole, list, n, &permitted.made), 0);
    assert!(whole == run, "all stores arrived: as the processor sees it");
    (0, some_cut(calls, image, list, &steps, random))
}

/// "After a cut a line holds its start plus some first few of its stores."
fn line_by_line(image: &[u8], steps: &[Step], arrivals: &[u64]) -> Vec<u8> {
    let mut after = image.to_vec();
    for (line, &arrived) in arrivals.iter().enumerate().filter(|&(_, &arrived)| arrived > 0) {
        let its_store = |step: &&Step| matches!(step, Step::Store { place, .. } if place / 64 == line);
        let first_few: Vec<Step> = steps.iter().filter(its_store).take(arrived as usize).copied().collect();
        memory::run(&mut after, &first_few);
    }
    after
}

/// A cut that is permitted, or just outside at one line.
fn some_cut(calls: &dyn Calls, image: &[u8], list: &[u64], steps: &[Step], random: &mut Random) -> u64 {
    let permitted = Permitted::after(steps, lines(image));
    let mut arrivals = some_arrivals(&permitted, random);
    if random.one_in(3) {
        let line = random.index(arrivals.len());
        let below = permitted.settled[line].wrapping_sub(1);
        arrivals[line] = random.pick(&[below, permitted.made[line] + 1, u64::MAX]);
    }
    let mut cut = image.to_vec();
    let answer = calls.cut(&mut cut, list, steps.len() as u64, &arrivals);
    if permitted.allows(&arrivals) {
        assert_eq!(answer, 0, "a permitted cut");
        assert!(cut == line_by_line(image, steps, &arrivals), "a cut makes the first few stores of each line");
    } else {
        assert_eq!(answer, 10, "a cut that is not permitted");
        assert!(cut == image, "a refusal changes no buffer");
    }
    answer
}
