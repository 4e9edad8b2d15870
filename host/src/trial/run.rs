//! One random run from a blank image: all calls, fills to refusal 6 and back to empty, whole and cut, beside a plain map
//! (demand 2) and the tally of line writes (demand 3).
use super::alike::scramble;
use super::cuts::{Change, Depth, all_cuts, some_arrivals};
use super::universe::Universe;
use crate::answers::{Made, Recovered};
use crate::calls::Calls;
use crate::model::{Kind, Map, Tally};
use crate::random::Random;
use crate::reference::image::{Chained, entries, sound_chain, target};
use crate::reference::leaf::{Leaf, SLOTS, sibling_place};
use crate::reference::memory::{Permitted, lines};
use crate::reference::steps::{LIST_WORDS, Step, counts, first_steps, line_writes};

/// What a run must have met, so that it cannot pass by missing it.
#[derive(Clone, Copy, Debug, Default)]
pub struct Met {
    pub refused_full: u64,
    pub emptied: u64,
    pub freed: u64,
    pub taken_again: u64,
    /// Blocks taken while a higher one was chained.
    pub taken_below: u64,
    pub splits: u64,
    pub cut_images: u64,
}

#[derive(Clone, Copy, Debug, PartialEq, Eq)]
enum Phase {
    Filling,
    Draining,
    Mixing,
}

/// A run in progress.
pub struct Run<'a> {
    calls: &'a dyn Calls,
    random: Random,
    universe: Universe,
    image: Vec<u8>,
    map: Map,
    pub tally: Tally,
    phase: Phase,
    left_in_phase: u64,
    /// From here on neighbours are taken away.
    thinning: u64,
    chained: Vec<bool>,
    ever_freed: Vec<bool>,
    pub met: Met,
    /// All cuts are tried of one list in so many.
    cuts_one_in: u64,
    depth: Depth,
}

impl<'a> Run<'a> {
    pub fn new(calls: &'a dyn Calls, random: Random, blocks: usize, universe: Universe) -> Run<'a> {
        Run {
            calls,
            random,
            universe,
            image: vec![0; 256 * blocks],
            map: Map::default(),
            tally: Tally::default(),
            phase: Phase::Filling,
            left_in_phase: 30 * blocks as u64,
            thinning: 0,
            chained: (0..blocks).map(|block| block == 0).collect(),
            ever_freed: vec![false; blocks],
            met: Met::default(),
            cuts_one_in: 64,
            depth: Depth { most: 200, sample: 8 },
        }
    }

    pub fn with_cuts(mut self, one_in: u64, depth: Depth) -> Run<'a> {
        (self.cuts_one_in, self.depth) = (one_in, depth);
        self
    }

    pub fn image(&self) -> &[u8] {
        &self.image
    }

    /// One random call, checked in full.
    pub fn call(&mut self) {
        let kind = match self.random.below(10) {
            0..6 => self.main_kind(),
            6 => Kind::Put,
            7 => Kind::Set,
            8 => Kind::Del,
            _ => return self.read(),
        };
        let key = self.key(kind);
        let value = self.random.word();
        self.change(kind, key, value);
        self.next_phase();
        if self.random.one_in(200) {
            scramble(&mut self.image, &mut self.random);
        }
    }

    fn main_kind(&mut self) -> Kind {
        match self.phase {
            Phase::Filling => Kind::Put,
            Phase::Draining => Kind::Del,
            Phase::Mixing => self.random.pick(&[Kind::Put, Kind::Set, Kind::Del]),
        }
    }

    /// Mostly a key for which the call is accepted.
    fn key(&mut self, kind: Kind) -> u64 {
        let any = self.universe.key(&mut self.random);
        if kind == Kind::Put || self.random.one_in(6) {
            return any;
        }
        let from = if kind == Kind::Del && self.phase == Phase::Mixing { self.thinned(any) } else { any };
        self.map.from(from).next().or(self.map.from(0).next()).map_or(any, |(key, _)| key)
    }

    /// Dels of neighbours empty a leaf while others are full, so that its block is taken again below the highest.
    fn thinned(&mut self, any: u64) -> u64 {
        if self.random.one_in(40) {
            self.thinning = any;
        }
        self.thinning
    }

    /// Filling and draining by turns, with a mixed phase before every second draining, which goes on until all is gone.
    fn next_phase(&mut self) {
        self.left_in_phase = self.left_in_phase.saturating_sub(1);
        let over = if self.phase == Phase::Draining { self.map.is_empty() } else { self.left_in_phase == 0 };
        if !over {
            return;
        }
        self.met.emptied += u64::from(self.phase == Phase::Draining);
        self.phase = match self.phase {
            Phase::Filling if self.met.emptied % 2 == 1 => Phase::Mixing,
            Phase::Filling | Phase::Mixing => Phase::Draining,
            Phase::Draining => Phase::Filling,
        };
        self.left_in_phase = 30 * self.image.len() as u64 / 256;
    }

    fn read(&mut self) {
        match self.random.below(3) {
            0 => {
                let key = self.key(Kind::Set);
                let found = self.calls.find(&self.image, key);
                let expected = self.map.get(key).map_or((5, 0), |value| (0, value));
                assert_eq!((found.answer, found.value), expected, "find {key}");
            }
            1 => self.list(),
            _ => self.recover(),
        }
    }

    fn list(&mut self) {
        let from = if self.random.one_in(2) { 0 } else { self.universe.key(&mut self.random) };
        let most = self.map.len() + 3;
        let (mut keys, mut values) = (self.junk(most), self.junk(most));
        let (keys_before, values_before) = (keys.clone(), values.clone());
        let listed = self.calls.listing(&self.image, from, &mut keys, &mut values);
        let room = keys.len().min(values.len());
        let expected: Vec<(u64, u64)> = self.map.from(from).take(room).collect();
        assert_eq!((listed.answer, listed.count), (0, expected.len() as u64), "listing from {from}");
        let got = keys.iter().copied().zip(values.iter().copied()).take(expected.len());
        assert!(expected.iter().copied().eq(got), "listing from {from}: keys and values, rising");
        assert_eq!(keys[expected.len()..], keys_before[expected.len()..], "keys past the count stay");
        assert_eq!(values[expected.len()..], values_before[expected.len()..], "values past the count stay");
    }

    fn recover(&mut self) {
        let chain = sound_chain(&self.image).expect("between calls the image is sound");
        let blocks = self.image.len() / 256;
        let [smallest_len, numbers_len] = [(); 2].map(|()| blocks - 1 + self.random.index(8).min(3));
        let (mut smallest, mut numbers) = (vec![3; smallest_len], vec![5; numbers_len]);
        let recovered = self.calls.recovery(&self.image, &mut smallest, &mut numbers);
        let accepted = smallest_len >= blocks && numbers_len >= blocks;
        let (answer, leaves, entries) = if accepted { (0, chain.len(), self.map.len()) } else { (8, 0, 0) };
        assert_eq!(recovered, Recovered { answer, leaves: leaves as u64, entries: entries as u64 }, "recovery");
        for (at, chained) in chain.iter().enumerate().take(leaves) {
            let expected = chained.leaf.smallest().unwrap_or(0);
            assert_eq!((smallest[at], numbers[at]), (expected, chained.block as u64), "recovery's leaf {at}");
        }
        let past = smallest[leaves..].iter().all(|&word| word == 3) && numbers[leaves..].iter().all(|&word| word == 5);
        assert!(past, "entries past recovery's leaves stay");
    }

    /// A buffer of random length, at most so long, with random words.
    fn junk(&mut self, most: usize) -> Vec<u64> {
        let length = if self.random.one_in(2) { most } else { self.random.index(most + 1) };
        let mut buffer = vec![0; length];
        self.random.fill_words(&mut buffer);
        buffer
    }

    fn change(&mut self, kind: Kind, key: u64, value: u64) {
        let mut list = vec![0; LIST_WORDS + self.random.index(3)];
        self.random.fill_words(&mut list);
        let list_before = list.clone();
        let made = match kind {
            Kind::Put => self.calls.put(&self.image, &mut list, key, value),
            Kind::Set => self.calls.set(&self.image, &mut list, key, value),
            Kind::Del => self.calls.del(&self.image, &mut list, key),
        };
        let written = 2 * made.steps as usize;
        assert_eq!(list[written..], list_before[written..], "words past the list stay");
        assert_eq!(made.answer, self.expected_answer(kind, key), "the answer of {kind:?} {key}");
        self.met.refused_full += u64::from(made.answer == 6);
        if made.answer == 0 {
            self.take(kind, key, value, &list, made);
        } else {
            assert_eq!(made, Made { answer: made.answer, ..Made::default() }, "a refusal tells 0 for every count");
        }
    }

    /// By the plain map; refusal 6 by the walk along the chain.
    fn expected_answer(&self, kind: Kind, key: u64) -> u64 {
        match (kind, self.map.get(key)) {
            (Kind::Put, Some(_)) => 4,
            (Kind::Put, None) if self.no_block_left(key) => 6,
            (Kind::Set | Kind::Del, None) => 5,
            _ => 0,
        }
    }

    /// "Target full and all N blocks chained."
    fn no_block_left(&self, key: u64) -> bool {
        if !self.chained.iter().all(|&chained| chained) {
            return false;
        }
        let chain = sound_chain(&self.image).expect("between calls the image is sound");
        assert_eq!(chain.len(), self.chained.len(), "all blocks are chained");
        chain[target(&chain, key)].leaf.vacant_slots().is_empty()
    }

    /// Tries the cuts of an accepted list, then takes it whole or cut. Only a cut may leave the map as it was.
    fn take(&mut self, kind: Kind, key: u64, value: u64, list: &[u64], made: Made) {
        let steps = first_steps(list, made.steps, self.image.len()).expect("a list of ours is well formed");
        assert_eq!(made, Ok(counts(&steps)).into(), "the counts told are the list's own");
        if kind != Kind::Put {
            three_steps(kind, &self.image, &steps);
        }
        let before: Vec<(u64, u64)> = self.map.from(0).collect();
        if self.random.one_in(self.cuts_one_in) {
            self.try_all_cuts(kind, key, value, list, made);
        }
        let whole = !self.random.one_in(5);
        if whole {
            assert_eq!(self.calls.run(&mut self.image, list, made.steps), 0);
            self.tally.whole(kind, line_writes(&steps));
        } else {
            self.take_cut(list, &steps);
        }
        let chain = sound_chain(&self.image).expect("a run or cut list leaves a sound image");
        let left = entries(&chain);
        if whole || left != before {
            apply(&mut self.map, kind, key, value);
        }
        assert!(self.map.is(&left), "{kind:?} {key}: the map after");
        assert!(self.tally.slack() >= 0, "demand 3: {:?}", self.tally);
        self.note_blocks(&chain);
    }

    fn try_all_cuts(&mut self, kind: Kind, key: u64, value: u64, list: &[u64], made: Made) {
        let before: Vec<(u64, u64)> = self.map.from(0).collect();
        let mut map_after = self.map.clone();
        apply(&mut map_after, kind, key, value);
        let after: Vec<(u64, u64)> = map_after.from(0).collect();
        let change = Change { image: &self.image, list, steps: made.steps, before: &before, after: &after };
        self.met.cut_images += all_cuts(self.calls, &change, self.depth, &mut self.random);
    }

    fn take_cut(&mut self, list: &[u64], steps: &[Step]) {
        let taken = &steps[..self.random.index(steps.len() + 1)];
        let arrivals = some_arrivals(&Permitted::after(taken, lines(&self.image)), &mut self.random);
        assert_eq!(self.calls.cut(&mut self.image, list, taken.len() as u64, &arrivals), 0);
        self.tally.cut(line_writes(taken));
    }

    fn note_blocks(&mut self, chain: &[Chained]) {
        let mut now = vec![false; self.chained.len()];
        for chained in chain {
            now[chained.block] = true;
        }
        let highest = self.chained.iter().rposition(|&chained| chained).expect("block 0 is always chained");
        for (block, (was, is)) in self.chained.iter().copied().zip(now.iter().copied()).enumerate() {
            self.met.splits += u64::from(!was && is);
            self.met.taken_again += u64::from(!was && is && self.ever_freed[block]);
            self.met.taken_below += u64::from(!was && is && block < highest);
            self.met.freed += u64::from(was && !is);
            self.ever_freed[block] |= was && !is;
        }
        self.chained = now;
    }
}

/// Set and del: a store, the write-back of its line, a fence. A del clears one slot's bit and keeps the rest of word 0, or
/// stores a sibling.
fn three_steps(kind: Kind, image: &[u8], steps: &[Step]) {
    let [Step::Store { place, value }, Step::WriteBack { line }, Step::Fence] = *steps else {
        panic!("{kind:?} has three steps, not {steps:?}")
    };
    assert_eq!(line, place / 64, "the line of the store is written back");
    if kind == Kind::Del && place % 256 < sibling_place(0) {
        let word_0 = Leaf::read(image, place / 256).words[0];
        let cleared = (0..SLOTS).any(|slot| value == word_0 & !(1 << slot) && value != word_0);
        assert!(place % 256 == 0 && cleared, "a del clears one bit and keeps the fingerprints");
    }
}

fn apply(map: &mut Map, kind: Kind, key: u64, value: u64) {
    match kind {
        Kind::Put | Kind::Set => map.insert(key, value),
        Kind::Del => map.remove(key),
    }
}
