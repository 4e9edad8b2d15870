//! What an index is for, in the plainest form: a map (demand 2), and the sum of its line writes (demand 3).
use crate::answers::LineWrites;
use std::collections::BTreeMap;

/// A plain map beside the image.
#[derive(Clone, Debug, Default, PartialEq, Eq)]
pub struct Map {
    entries: BTreeMap<u64, u64>,
}

impl Map {
    pub fn get(&self, key: u64) -> Option<u64> {
        self.entries.get(&key).copied()
    }

    /// Put and set come to the same map.
    pub fn insert(&mut self, key: u64, value: u64) {
        self.entries.insert(key, value);
    }

    pub fn remove(&mut self, key: u64) {
        self.entries.remove(&key);
    }

    pub fn len(&self) -> usize {
        self.entries.len()
    }

    pub fn is_empty(&self) -> bool {
        self.entries.is_empty()
    }

    /// Keys and values from a key on, rising.
    pub fn from(&self, key: u64) -> impl Iterator<Item = (u64, u64)> {
        self.entries.range(key..).map(|(&key, &value)| (key, value))
    }

    pub fn is(&self, entries: &[(u64, u64)]) -> bool {
        self.from(0).eq(entries.iter().copied())
    }
}

/// The three calls that make a list.
#[derive(Clone, Copy, Debug, PartialEq, Eq)]
pub enum Kind {
    Put,
    Set,
    Del,
}

/// Demand 3's sum from a blank image on: 7W <= 20I + 7(D + R) + 42C. A call run whole counts in I, D or R and with all
/// its line writes; a cut one counts in C only, with the line writes among the steps taken.
#[derive(Clone, Copy, Debug, Default)]
pub struct Tally {
    pub inserts: u64,
    pub deletes: u64,
    pub replacements: u64,
    pub cuts: u64,
    pub line_writes: LineWrites,
    least: Option<i64>,
}

impl Tally {
    pub fn whole(&mut self, kind: Kind, line_writes: LineWrites) {
        match kind {
            Kind::Put => self.inserts += 1,
            Kind::Set => self.replacements += 1,
            Kind::Del => self.deletes += 1,
        }
        self.add(line_writes);
    }

    pub fn cut(&mut self, line_writes_taken: LineWrites) {
        self.cuts += 1;
        self.add(line_writes_taken);
    }

    fn add(&mut self, line_writes: LineWrites) {
        self.line_writes.0 += line_writes.0;
        let slack = self.slack();
        self.least = Some(self.least.map_or(slack, |least| least.min(slack)));
    }

    /// What is left of the right side; demand 3 says that it is never below 0.
    pub fn slack(&self) -> i64 {
        let right = 20 * self.inserts + 7 * (self.deletes + self.replacements) + 42 * self.cuts;
        right as i64 - 7 * self.line_writes.0 as i64
    }

    /// The least slack after any call so far.
    pub fn least_slack(&self) -> i64 {
        self.least.unwrap_or(0)
    }
}
