//! A caller that wants to wear the memory out: of many calls, whole or cut, it takes the one that eats most of demand 3's
//! slack. Cut calls may be such that nothing is gained, so that they can be made again.
use super::settings::Settings;
use crate::answers::Made;
use crate::calls::Calls;
use crate::model::{Kind, Tally};
use crate::random::Random;
use crate::reference::image::map_of;
use crate::reference::memory::{Permitted, lines};
use crate::reference::steps::{LIST_WORDS, Step, counts, first_steps, line_writes};

/// A call the adversary could make, and what slack is left after it.
struct Move {
    image: Vec<u8>,
    tally: Tally,
}

fn put_or_del(calls: &dyn Calls, image: &[u8], key: u64, kind: Kind) -> Vec<Step> {
    let mut list = [0; LIST_WORDS];
    let made = match kind {
        Kind::Del => calls.del(image, &mut list, key),
        _ => calls.put(image, &mut list, key, key),
    };
    let steps = first_steps(&list, made.steps, image.len()).expect("a list of ours is well formed");
    assert_eq!(made, Made { answer: made.answer, ..Ok(counts(&steps)).into() }, "the counts told are the list's own");
    steps
}

fn take(calls: &dyn Calls, from: &Move, kind: Kind, key: u64, random: &mut Random) -> Option<Move> {
    let steps = put_or_del(calls, &from.image, key, kind);
    let list: Vec<u64> = steps.iter().flat_map(|step| step.words()).collect();
    let (mut image, mut tally) = (from.image.clone(), from.tally);
    if steps.is_empty() {
        return None;
    }
    if random.one_in(3) {
        let taken = &steps[..=random.index(steps.len())];
        let Permitted { settled, made } = Permitted::after(taken, lines(&image));
        let arrivals = if random.one_in(2) { settled } else { made };
        assert_eq!(calls.cut(&mut image, &list, taken.len() as u64, &arrivals), 0);
        tally.cut(line_writes(taken));
    } else {
        assert_eq!(calls.run(&mut image, &list, steps.len() as u64), 0);
        tally.whole(kind, line_writes(&steps));
    }
    Some(Move { image, tally })
}

/// A key beside one that is there, or any.
fn some_key(entries: &[(u64, u64)], random: &mut Random) -> u64 {
    if entries.is_empty() || random.one_in(4) {
        return random.word() >> random.below(60);
    }
    random.pick(entries).0.wrapping_add(random.below(9)).wrapping_sub(4)
}

fn best(calls: &dyn Calls, from: &Move, random: &mut Random) -> Option<Move> {
    let entries = map_of(&from.image).expect("a run or cut list leaves a sound image");
    let mut best: Option<Move> = None;
    for _ in 0..1 + random.index(16) {
        let kind = if random.one_in(6) { Kind::Del } else { Kind::Put };
        let key = some_key(&entries, random);
        let tried = take(calls, from, kind, key, random);
        let slack = |tried: &Option<Move>| tried.as_ref().map_or(i64::MAX, |tried| tried.tally.slack());
        if slack(&tried) < slack(&best) {
            best = tried;
        }
    }
    best
}

pub fn wear_out(calls: &dyn Calls, settings: &Settings) {
    let (mut least, mut least_late) = (i64::MAX, i64::MAX);
    let total = settings.times(24);
    for part in 0..total {
        settings.progress(part, total);
        let mut random = settings.random(part);
        let blocks = [1, 2, 3, 4, 8, 32][part as usize % 6];
        let mut at = Move { image: vec![0; 256 * blocks], tally: Tally::default() };
        for made in 0..600 {
            let Some(next) = best(calls, &at, &mut random) else { continue };
            at = next;
            assert!(at.tally.slack() >= 0, "demand 3: {:?}", at.tally);
            if made >= 100 {
                least_late = least_late.min(at.tally.slack());
            }
        }
        let Tally { inserts, deletes, cuts, .. } = at.tally;
        assert!(inserts > 14 && deletes > 0 && cuts > 0, "the adversary could call: {:?}", at.tally);
        least = least.min(at.tally.least_slack());
    }
    settings.say(&format!("least slack of demand 3: {least}, and {least_late} after the first hundred calls"));
}
