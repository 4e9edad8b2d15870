//! `make bench`: time per call of the proved library and of the best plain Rust we could write for the same job, by turns
//! in one run. `bench count BLOCKS JOB NAME CALLS` only makes the calls, for a tool that counts instructions.
mod scene;

use scene::{JOBS, Job, Scene};
use std::hint::black_box;
use std::process::ExitCode;
use std::time::{Duration, Instant};
use stringhut::board::Board;
use stringhut::calls::Calls;
use stringhut::fast::Fast;

const SIZES: [usize; 3] = [4, 64, 256];
const SEED: u64 = 70;
/// Each sweep takes some rounds of every row: what keeps the machine busy for a second spoils no row.
const SWEEPS: usize = 12;
const ROUNDS: usize = 16;
/// Short, so that many pass without another program in between.
const ROUND: Duration = Duration::from_micros(400);

/// The buffers of all calls.
struct Buffers {
    list: [u64; 112],
    keys: Vec<u64>,
    values: Vec<u64>,
}

impl Buffers {
    fn for_scene(scene: &Scene) -> Buffers {
        let room = scene.entries.max(scene.image.len() / 256);
        Buffers { list: [0; 112], keys: vec![0; room], values: vec![0; room] }
    }
}

/// One call of the job, and its answer.
fn call(calls: &dyn Calls, job: Job, image: &[u8], key: u64, buffers: &mut Buffers) -> u64 {
    let Buffers { list, keys, values } = buffers;
    let image = black_box(image);
    match job {
        Job::FindHit | Job::FindMiss => black_box(calls.find(image, key)).answer,
        Job::PutLine0 | Job::PutMoving | Job::PutSplit => black_box(calls.put(image, list, key, 1)).answer,
        Job::Set => black_box(calls.set(image, list, key, 1)).answer,
        Job::Del => black_box(calls.del(image, list, key)).answer,
        Job::Listing => black_box(calls.listing(image, key, keys, values)).answer,
        Job::Recovery => black_box(calls.recovery(image, keys, values)).answer,
    }
}

fn repeat(calls: &dyn Calls, job: Job, scene: &Scene, times: usize, buffers: &mut Buffers) {
    let expected = if job == Job::FindMiss { 5 } else { 0 };
    for &key in scene.keys(job).iter().cycle().take(times) {
        assert_eq!(call(calls, job, &scene.image, key, buffers), expected, "{}", job.name());
    }
}

/// How often to call so that a round takes its time.
fn calls_per_round(mut repeat: impl FnMut(usize)) -> usize {
    let mut times = 1;
    loop {
        let start = Instant::now();
        repeat(times);
        if start.elapsed() > ROUND / 4 {
            return times * 4;
        }
        times *= 2;
    }
}

fn nanoseconds(times: usize, repeat: impl FnOnce(usize)) -> f64 {
    let start = Instant::now();
    repeat(times);
    start.elapsed().as_nanos() as f64 / times as f64
}

/// One row of the table: how often a round makes its call, and the best round of each.
struct Row {
    job: Job,
    times: usize,
    library: f64,
    plain: f64,
}

impl Row {
    fn new(job: Job, scene: &Scene, buffers: &mut Buffers) -> Row {
        let times = calls_per_round(|times| repeat(&Fast, job, scene, times, buffers));
        Row { job, times, library: f64::MAX, plain: f64::MAX }
    }

    /// Rounds of each by turns, so that both meet the same machine.
    fn measure(&mut self, scene: &Scene, buffers: &mut Buffers) {
        let mut round =
            |calls: &dyn Calls| nanoseconds(self.times, |times| repeat(calls, self.job, scene, times, buffers));
        for _ in 0..ROUNDS {
            self.library = self.library.min(round(&Board));
            self.plain = self.plain.min(round(&Fast));
        }
    }

    fn print(&self, bytes: f64, pass: f64) {
        let Row { job, library, plain, .. } = self;
        let (ratio, rate, passes) = (library / plain, bytes / library, library / pass);
        println!("{:16} {library:12.1} {plain:12.1} {ratio:7.2} {rate:12.2} {passes:9.1}", job.name());
    }
}

fn words(scene: &Scene) -> impl Iterator<Item = u64> {
    let blocks = scene.image.as_chunks::<256>().0;
    let words = scene.chained.iter().flat_map(|&block| blocks[block].as_chunks::<8>().0);
    words.map(|&word| u64::from_le_bytes(word))
}

/// One plain pass over the chained blocks, as many words at once as the compiler sees fit.
fn wide_pass(scene: &Scene) -> u64 {
    words(scene).fold(0, |sum, word| sum ^ word)
}

/// One plain pass that must take the words one by one: a load, a turn and an exclusive-or for each.
fn pass(scene: &Scene) -> u64 {
    words(scene).fold(0, |sum: u64, word| sum.rotate_left(1) ^ word)
}

fn pass_time(pass: fn(&Scene) -> u64, scene: &Scene) -> f64 {
    let passes = |times: usize| (0..times).for_each(|_| _ = black_box(pass(black_box(scene))));
    let times = calls_per_round(passes);
    (0..ROUNDS).map(|_| nanoseconds(times, passes)).fold(f64::MAX, f64::min)
}

fn table(blocks: usize) {
    let scene = Scene::new(blocks, SEED);
    let mut buffers = Buffers::for_scene(&scene);
    let mut rows = JOBS.map(|job| Row::new(job, &scene, &mut buffers));
    let (mut by_word, mut wide) = (f64::MAX, f64::MAX);
    for _ in 0..SWEEPS {
        by_word = by_word.min(pass_time(pass, &scene));
        wide = wide.min(pass_time(wide_pass, &scene));
        rows.iter_mut().for_each(|row| row.measure(&scene, &mut buffers));
    }
    let bytes = 256.0 * scene.chained.len() as f64;
    println!("\nN = {blocks}: {} blocks chained, {} entries.", scene.chained.len(), scene.entries);
    println!("A plain pass over them takes {by_word:.0} ns word by word, {:.1} bytes/ns;", bytes / by_word);
    println!("{wide:.0} ns with several words at once, {:.1} bytes/ns.", bytes / wide);
    println!("{:16} {:>12} {:>12} {:>7} {:>12} {:>9}", "", "library ns", "plain ns", "ratio", "lib bytes/ns", "passes");
    rows.iter().for_each(|row| row.print(bytes, by_word));
}

/// `count BLOCKS JOB NAME CALLS`: JOB is the number of a row from 0, NAME is library or plain.
fn count(arguments: &[String]) -> Option<()> {
    let [blocks, job, name, times] = arguments else { return None };
    let scene = Scene::new(blocks.parse().ok()?, SEED);
    let job = *JOBS.get(job.parse::<usize>().ok()?)?;
    let calls: &dyn Calls = match name.as_str() {
        "library" => &Board,
        "plain" => &Fast,
        _ => return None,
    };
    repeat(calls, job, &scene, times.parse().ok()?, &mut Buffers::for_scene(&scene));
    Some(())
}

fn main() -> ExitCode {
    let arguments: Vec<String> = std::env::args().skip(1).collect();
    match arguments.split_first() {
        None => {
            println!("Best of {} rounds, library and plain Rust by turns.", SWEEPS * ROUNDS);
            println!("Passes: the library's time in plain passes word by word.");
            SIZES.into_iter().for_each(table);
            ExitCode::SUCCESS
        }
        Some((first, rest)) if first == "count" && count(rest).is_some() => ExitCode::SUCCESS,
        _ => {
            eprintln!("usage: bench [count BLOCKS JOB library|plain CALLS]");
            ExitCode::FAILURE
        }
    }
}
