//! Seed and length of a trial, from the environment, and its progress line.
use crate::random::{Random, mix};
use std::cell::Cell;
use std::io::Write;
use std::time::{Duration, Instant};

const DEFAULT_SEED: u64 = 20_201_231;
const BETWEEN_LINES: Duration = Duration::from_secs(20);

/// STRINGHUT_SEED and STRINGHUT_LENGTH (a factor on the number of calls), with the trial's name.
pub struct Settings {
    name: &'static str,
    seed: u64,
    length: u64,
    started: Instant,
    last_line: Cell<Instant>,
    quiet: bool,
}

fn from_environment(name: &str, default: u64) -> u64 {
    match std::env::var(name) {
        Ok(text) => text.parse().unwrap_or_else(|_| panic!("{name} must be a decimal number, not {text:?}")),
        Err(_) => default,
    }
}

impl Settings {
    pub fn of(name: &'static str) -> Settings {
        let (seed, length) =
            (from_environment("STRINGHUT_SEED", DEFAULT_SEED), from_environment("STRINGHUT_LENGTH", 1));
        let now = Instant::now();
        Settings { name, seed, length, started: now, last_line: Cell::new(now), quiet: false }
    }

    /// Without a line, for a trial that is to fail.
    pub fn quiet(mut self) -> Settings {
        self.quiet = true;
        self
    }

    /// A generator of its own for each trial and each part of it.
    pub fn random(&self, part: u64) -> Random {
        let name = self.name.bytes().fold(0, |so_far, byte| mix(so_far ^ u64::from(byte)));
        Random::new(mix(self.seed ^ name) ^ mix(part))
    }

    pub fn times(&self, short: u64) -> u64 {
        short * self.length
    }

    /// A line now and then on long trials.
    pub fn progress(&self, done: u64, of: u64) {
        if self.last_line.get().elapsed() >= BETWEEN_LINES {
            self.last_line.set(Instant::now());
            self.say(&format!("{done} of {of} after {} s", self.started.elapsed().as_secs()));
        }
    }

    /// Straight to standard error: the test harness would swallow a printed line.
    pub fn say(&self, line: &str) {
        if !self.quiet {
            writeln!(std::io::stderr(), "  {}: {line}", self.name).expect("standard error takes a line");
        }
    }
}

impl Drop for Settings {
    fn drop(&mut self) {
        if std::thread::panicking() {
            self.say(&format!("failed with STRINGHUT_SEED={} STRINGHUT_LENGTH={}", self.seed, self.length));
        }
    }
}
