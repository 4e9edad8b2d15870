//! Steps, and how two words of a list hold one.
use super::leaf::{BLOCK_BYTES, LINE_BYTES};
use crate::answers::{Counts, LineWrites, WordWrites};

pub const MOST_STEPS: usize = 56;
pub const LIST_WORDS: usize = 2 * MOST_STEPS;
const WRITE_BACK: u64 = 1 << 32;
const FENCE: u64 = 1 << 33;

/// "A step is a store of one word at a place, a write-back of one line, or a fence."
#[derive(Clone, Copy, Debug, PartialEq, Eq)]
pub enum Step {
    Store { place: usize, value: u64 },
    WriteBack { line: usize },
    Fence,
}

impl Step {
    /// A store at a place counted from the start of a block.
    pub fn store(block: usize, place: usize, value: u64) -> Step {
        Step::Store { place: BLOCK_BYTES * block + place, value }
    }

    /// A write-back of one of a block's four lines.
    pub fn write_back(block: usize, line: usize) -> Step {
        Step::WriteBack { line: BLOCK_BYTES / LINE_BYTES * block + line }
    }

    pub fn words(self) -> [u64; 2] {
        match self {
            Step::Store { place, value } => [place as u64, value],
            Step::WriteBack { line } => [WRITE_BACK + line as u64, 0],
            Step::Fence => [FENCE, 0],
        }
    }

    /// "Every other pair is malformed."
    pub fn decode(first: u64, second: u64, image_bytes: usize) -> Option<Step> {
        let lines = (image_bytes / LINE_BYTES) as u64;
        if first < image_bytes as u64 && first.is_multiple_of(8) {
            return Some(Step::Store { place: first as usize, value: second });
        }
        if (WRITE_BACK..WRITE_BACK + lines).contains(&first) && second == 0 {
            return Some(Step::WriteBack { line: (first - WRITE_BACK) as usize });
        }
        (first == FENCE && second == 0).then_some(Step::Fence)
    }
}

/// The first n steps of a list, where there are so many and all are well formed (refusal 7 otherwise).
pub fn first_steps(list: &[u64], n: u64, image_bytes: usize) -> Option<Vec<Step>> {
    if n > MOST_STEPS as u64 {
        return None;
    }
    let words = list.get(..2 * n as usize)?;
    words.chunks_exact(2).map(|pair| Step::decode(pair[0], pair[1], image_bytes)).collect()
}

/// Writes the steps from the list's start; words past them stay.
pub fn write(steps: &[Step], list: &mut [u64]) {
    for (pair, step) in list.chunks_exact_mut(2).zip(steps) {
        pair.copy_from_slice(&step.words());
    }
}

pub fn line_writes(steps: &[Step]) -> LineWrites {
    LineWrites(steps.iter().filter(|step| matches!(step, Step::WriteBack { .. })).count() as u64)
}

pub fn word_writes(steps: &[Step]) -> WordWrites {
    WordWrites(steps.iter().filter(|step| matches!(step, Step::Store { .. })).count() as u64)
}

pub fn counts(steps: &[Step]) -> Counts {
    Counts { steps: steps.len() as u64, line_writes: line_writes(steps), word_writes: word_writes(steps) }
}
