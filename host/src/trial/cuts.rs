//! Every cut of a list: for every n every permitted arrivals vector where there are not too many, else the extremes and
//! a sample. The image left must be sound, and its map that of before or of after.
use crate::calls::Calls;
use crate::random::Random;
use crate::reference::image::map_of;
use crate::reference::memory::{Permitted, lines};
use crate::reference::steps::first_steps;

/// An accepted list over an image, with the maps it leads from and to.
pub struct Change<'a> {
    pub image: &'a [u8],
    pub list: &'a [u64],
    pub steps: u64,
    pub before: &'a [(u64, u64)],
    pub after: &'a [(u64, u64)],
}

/// How many arrivals vectors of one n are tried, at most, and how many where there are more.
#[derive(Clone, Copy, Debug)]
pub struct Depth {
    pub most: u64,
    pub sample: u64,
}

/// Tries the cuts and gives their number.
pub fn all_cuts(calls: &dyn Calls, change: &Change, depth: Depth, random: &mut Random) -> u64 {
    let mut cuts = 0;
    for n in 0..=change.steps {
        let taken = first_steps(change.list, n, change.image.len()).expect("a list of ours is well formed");
        let permitted = Permitted::after(&taken, lines(change.image));
        for_each_arrivals(&permitted, depth, random, &mut |arrivals| {
            one_cut(calls, change, n, arrivals);
            cuts += 1;
        });
    }
    cuts
}

fn one_cut(calls: &dyn Calls, change: &Change, n: u64, arrivals: &[u64]) {
    let mut image = change.image.to_vec();
    assert_eq!(calls.cut(&mut image, change.list, n, arrivals), 0, "a permitted cut of {n} steps is accepted");
    let map = map_of(&image).unwrap_or_else(|| panic!("the cut of {n} steps with {arrivals:?} left no sound image"));
    let (is_before, is_after) = (map == change.before, map == change.after);
    assert!(is_before || is_after, "the cut of {n} steps with {arrivals:?} left neither map");
    assert!(n > 0 || is_before, "no step taken, no change");
    assert!(n < change.steps || is_after, "all steps taken and settled");
    if (n + arrivals.iter().sum::<u64>()).is_multiple_of(8) {
        judged_alike(calls, &image, &map);
    }
}

/// The implementation's own verdict on what a cut left: sound, with that many entries.
fn judged_alike(calls: &dyn Calls, image: &[u8], map: &[(u64, u64)]) {
    let (mut smallest, mut blocks) = (vec![7; image.len() / 256], vec![7; image.len() / 256]);
    let recovered = calls.recovery(image, &mut smallest, &mut blocks);
    assert_eq!((recovered.answer, recovered.entries), (0, map.len() as u64), "recovery of a cut image");
}

/// The lines whose arrivals are open.
fn open_lines(permitted: &Permitted) -> Vec<usize> {
    (0..permitted.made.len()).filter(|&line| permitted.settled[line] < permitted.made[line]).collect()
}

fn choices(permitted: &Permitted, open: &[usize]) -> u64 {
    open.iter().map(|&line| permitted.made[line] - permitted.settled[line] + 1).product()
}

pub fn for_each_arrivals(permitted: &Permitted, depth: Depth, random: &mut Random, visit: &mut dyn FnMut(&[u64])) {
    let open = open_lines(permitted);
    if choices(permitted, &open) <= depth.most {
        return every_arrivals(permitted, &open, visit);
    }
    extremes(permitted, &open, visit);
    for _ in 0..depth.sample {
        visit(&some_arrivals(permitted, random));
    }
}

/// Counts through all vectors as an odometer does.
fn every_arrivals(permitted: &Permitted, open: &[usize], visit: &mut dyn FnMut(&[u64])) {
    let mut arrivals = permitted.settled.clone();
    loop {
        visit(&arrivals);
        let Some(at) = open.iter().position(|&line| arrivals[line] < permitted.made[line]) else { return };
        arrivals[open[at]] += 1;
        for &line in &open[..at] {
            arrivals[line] = permitted.settled[line];
        }
    }
}

/// None and all of the unsettled stores, and each line alone at the other end.
fn extremes(permitted: &Permitted, open: &[usize], visit: &mut dyn FnMut(&[u64])) {
    for (here, other) in [(&permitted.settled, &permitted.made), (&permitted.made, &permitted.settled)] {
        visit(here);
        for &line in open {
            let mut arrivals = here.clone();
            arrivals[line] = other[line];
            visit(&arrivals);
        }
    }
}

/// A permitted vector, each end of a line's range as likely as all between.
pub fn some_arrivals(permitted: &Permitted, random: &mut Random) -> Vec<u64> {
    let mut arrivals = permitted.settled.clone();
    for line in open_lines(permitted) {
        let (least, most) = (permitted.settled[line], permitted.made[line]);
        arrivals[line] = match random.below(3) {
            0 => least,
            1 => most,
            _ => least + random.below(most - least + 1),
        };
    }
    arrivals
}
