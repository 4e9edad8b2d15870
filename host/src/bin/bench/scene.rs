//! The images and keys that the table is measured on.
use stringhut::fast::Fast;
use stringhut::random::Random;
use stringhut::reference::image::{entries, sound_chain};
use stringhut::{Calls, LIST_WORDS};

/// What one row of the table calls, over and over.
#[derive(Clone, Copy, Debug, PartialEq, Eq)]
pub enum Job {
    FindHit,
    FindMiss,
    PutLine0,
    PutMoving,
    PutSplit,
    Set,
    Del,
    Listing,
    Recovery,
}

pub const JOBS: [Job; 9] = [
    Job::FindHit,
    Job::FindMiss,
    Job::PutLine0,
    Job::PutMoving,
    Job::PutSplit,
    Job::Set,
    Job::Del,
    Job::Listing,
    Job::Recovery,
];

impl Job {
    pub fn name(self) -> &'static str {
        match self {
            Job::FindHit => "find, hit",
            Job::FindMiss => "find, miss",
            Job::PutLine0 => "put in line 0",
            Job::PutMoving => "put, moving",
            Job::PutSplit => "put, split",
            Job::Set => "set",
            Job::Del => "del",
            Job::Listing => "listing of all",
            Job::Recovery => "recovery",
        }
    }
}

/// An image 70 % full, with keys for each job. No call changes it, so that each can be made again.
pub struct Scene {
    pub image: Vec<u8>,
    pub entries: usize,
    pub chained: Vec<usize>,
    present: Vec<u64>,
    absent: [Vec<u64>; 3],
}

const MOST_KEYS: usize = 64;

impl Scene {
    /// The first seed from this one on whose image has keys for every job.
    pub fn new(blocks: usize, seed: u64) -> Scene {
        let mut scenes = (seed..seed + 1_000).map(|seed| Scene::of(blocks, seed));
        scenes.find(|scene| scene.absent.iter().all(|keys| !keys.is_empty())).expect("an image with keys for every job")
    }

    fn of(blocks: usize, seed: u64) -> Scene {
        let mut random = Random::new(seed);
        let image = filled(blocks, &mut random);
        let chain = sound_chain(&image).expect("sound");
        let entries = entries(&chain);
        Scene {
            entries: entries.len(),
            chained: chain.iter().map(|chained| chained.block).collect(),
            present: (0..MOST_KEYS).map(|_| random.pick(&entries).0).collect(),
            absent: absent_keys(&image, &mut random),
            image,
        }
    }

    pub fn keys(&self, job: Job) -> &[u64] {
        match job {
            Job::FindHit | Job::Set | Job::Del => &self.present,
            Job::FindMiss | Job::PutLine0 => &self.absent[0],
            Job::PutMoving => &self.absent[1],
            Job::PutSplit => &self.absent[2],
            Job::Listing | Job::Recovery => &[0],
        }
    }
}

/// Random keys until 70 % of the slots are taken; one block is left for the splits.
fn filled(blocks: usize, random: &mut Random) -> Vec<u8> {
    let mut image = vec![0; 256 * blocks];
    let mut list = [0; LIST_WORDS];
    let (mut entries, mut chained) = (0, 1);
    while entries < blocks * 14 * 7 / 10 {
        let made = Fast.put(&image, &mut list, random.word(), random.word());
        let splits = usize::from(made.steps >= 42);
        if made.answer == 0 && chained + splits < blocks {
            Fast.run(&mut image, &list, made.steps);
            entries += 1;
            chained += splits;
        }
    }
    image
}

/// Absent keys by what their put does: into line 0, past it with moving, into a full leaf.
fn absent_keys(image: &[u8], random: &mut Random) -> [Vec<u64>; 3] {
    let mut keys = [const { Vec::new() }; 3];
    let mut list = [0; LIST_WORDS];
    for _ in 0..10 * MOST_KEYS {
        let key = random.word();
        let kind: &mut Vec<u64> = match Fast.put(image, &mut list, key, key).steps {
            0 => continue,
            1..=5 => &mut keys[0],
            6..=14 => &mut keys[1],
            _ => &mut keys[2],
        };
        if kind.len() < MOST_KEYS {
            kind.push(key);
        }
    }
    keys
}
