//! `make wear`: line writes and word writes per put, ours beside the same leaf without moving, as a table and, where a
//! path is given, as a picture.
mod chart;

use std::process::ExitCode;
use stringhut::Refusal;
use stringhut::random::Random;
use stringhut::reference::steps::{Step, line_writes, word_writes};
use stringhut::reference::{self, image::map_of, memory};
use stringhut::traditional::{self, Packing};

const BLOCKS: usize = 256;
const SEED: u64 = 2020;
/// Theorem 3.5 is about a tree whose every leaf comes from a split: so many puts come before we count plain ones.
const WARM_UP: u64 = 400;

#[derive(Clone, Copy, PartialEq, Eq)]
pub enum Design {
    Ours,
    WithoutMoving,
    Traditional,
}

#[derive(Clone, Copy)]
pub enum Keys {
    Random,
    Ascending,
    Descending,
    Mix,
}

pub const DESIGNS: [Design; 3] = [Design::Ours, Design::WithoutMoving, Design::Traditional];
pub const WORKS: [Keys; 4] = [Keys::Random, Keys::Ascending, Keys::Descending, Keys::Mix];

impl Design {
    pub fn name(self) -> &'static str {
        match self {
            Design::Ours => "ours",
            Design::WithoutMoving => "without moving",
            Design::Traditional => "traditional (001)",
        }
    }

    fn put(self, image: &[u8], key: u64) -> Result<Vec<Step>, Refusal> {
        match self {
            Design::Ours => reference::put_steps(image, key, key),
            Design::WithoutMoving => traditional::put_steps(image, Packing::FromTheEnd, key, key),
            Design::Traditional => traditional::put_steps(image, Packing::FromTheStart, key, key),
        }
    }
}

impl Keys {
    pub fn name(self) -> &'static str {
        match self {
            Keys::Random => "random keys",
            Keys::Ascending => "ascending keys",
            Keys::Descending => "descending keys",
            Keys::Mix => "put and del mixed",
        }
    }
}

/// Counts over the puts of one work.
#[derive(Clone, Copy, Default)]
pub struct Wear {
    puts: u64,
    lines: u64,
    words: u64,
    plain_puts: u64,
    plain_lines: u64,
}

impl Wear {
    fn add(&mut self, steps: &[Step], warm: bool) {
        let lines = line_writes(steps).0;
        self.puts += 1;
        self.lines += lines;
        self.words += word_writes(steps).0;
        if lines <= 2 && warm {
            self.plain_puts += 1;
            self.plain_lines += lines;
        }
    }

    pub fn lines_per_put(&self) -> f64 {
        self.lines as f64 / self.puts as f64
    }

    pub fn words_per_put(&self) -> f64 {
        self.words as f64 / self.puts as f64
    }

    pub fn lines_per_plain_put(&self) -> f64 {
        self.plain_lines as f64 / self.plain_puts as f64
    }
}

/// Blank images filled until a put is refused, one after another.
fn filled(design: Design, images: u64, mut key: impl FnMut() -> u64) -> Wear {
    let mut wear = Wear::default();
    for _ in 0..images {
        let mut image = vec![0; 256 * BLOCKS];
        for put in 0.. {
            let Ok(steps) = design.put(&image, key()) else { break };
            memory::run(&mut image, &steps);
            wear.add(&steps, put >= WARM_UP);
        }
    }
    wear
}

/// A put of a new key and a del of one that is there, by turns. Leaves are freed only when empty, so the mix thins them
/// out: it goes on at four entries a block.
fn mixed(design: Design, random: &mut Random) -> Wear {
    let mut wear = Wear::default();
    let mut image = vec![0; 256 * BLOCKS];
    let mut present = Vec::new();
    for _ in 0..12_000 {
        let key = random.word();
        let steps = design.put(&image, key).expect("there is room");
        memory::run(&mut image, &steps);
        present.push(key);
        if present.len() > 4 * BLOCKS {
            wear.add(&steps, true);
            let gone = present.swap_remove(random.index(present.len()));
            let steps = reference::del_steps(&image, gone).expect("a key that is there");
            memory::run(&mut image, &steps);
        }
    }
    assert_eq!(map_of(&image).expect("sound").len(), present.len());
    wear
}

fn measure(design: Design, keys: Keys) -> Wear {
    let mut random = Random::new(SEED);
    let mut count = 0;
    let mut next = || {
        count += 1;
        count
    };
    match keys {
        Keys::Random => filled(design, 4, || random.word()),
        Keys::Ascending => filled(design, 1, next),
        Keys::Descending => filled(design, 1, || u64::MAX - next()),
        Keys::Mix => mixed(design, &mut random),
    }
}

fn print_table(table: &[[Wear; 3]; 4]) {
    println!(
        "Line writes and word writes per put, {BLOCKS} blocks, seed {SEED}. 'Plain' is line writes per put that splits"
    );
    println!(
        "no leaf, after the first {WARM_UP} puts. Without moving: our split, no copies. Traditional: also the split's"
    );
    println!("new leaf packed from slot 0, as in 001. The proved bound is 20/7 = 2.857 line writes per put.\n");
    println!("{:18} {:18} {:>8} {:>8} {:>8} {:>8}", "keys", "design", "puts", "lines", "words", "plain");
    for (keys, row) in WORKS.iter().zip(table) {
        for (design, wear) in DESIGNS.iter().zip(row) {
            let (lines, words, plain) = (wear.lines_per_put(), wear.words_per_put(), wear.lines_per_plain_put());
            println!("{:18} {:18} {:8} {lines:8.3} {words:8.3} {plain:8.3}", keys.name(), design.name(), wear.puts);
        }
    }
    println!("\nTheorem 3.5 of 001, plain puts, random keys: at most 1.31 with moving, at least 1.77 traditionally.");
    println!("Here: {:.3} and {:.3}.", table[0][0].lines_per_plain_put(), table[0][2].lines_per_plain_put());
}

fn main() -> ExitCode {
    let table = WORKS.map(|keys| DESIGNS.map(|design| measure(design, keys)));
    print_table(&table);
    let Some(path) = std::env::args_os().nth(1) else { return ExitCode::SUCCESS };
    match std::fs::write(&path, chart::picture(&table)) {
        Ok(()) => ExitCode::SUCCESS,
        Err(error) => {
            eprintln!("wear: {}: {error}", path.display());
            ExitCode::FAILURE
        }
    }
}
