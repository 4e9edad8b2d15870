//! The proved library from Rust: slices in, results out, no unsafe code for the caller.
//!
//! ```
//! use stringhut::{LIST_WORDS, Refusal, board};
//!
//! let mut image = [0u8; 4 * 256]; // blank: sound, with an empty map
//! let mut list = [0u64; LIST_WORDS];
//! let made = board::put(&image, &mut list, 10, 100)?; // writes the list, changes no byte of the image
//! board::run(&mut image, &list, made.steps)?; // the stores, as the processor sees them
//! assert_eq!(board::find(&image, 10), Ok(100));
//! assert_eq!(board::put(&image, &mut list, 10, 7), Err(Refusal::KeyPresent));
//! # Ok::<(), Refusal>(())
//! ```
use crate::answers::{Counts, Found, LineWrites, Listed, Made, Recovered, Refusal, Tree, WordWrites};
use crate::calls::Calls;
use crate::ffi;

/// The proved library as an implementation of the eight calls, its answers as they come.
#[derive(Clone, Copy, Debug)]
pub struct Board;

/// An answer as a result. The library gives no other number: its contracts say so, and this is where we would see it.
fn accepted<T>(answer: u64, told: T) -> Result<T, Refusal> {
    match answer {
        0 => Ok(told),
        _ => Err(Refusal::from_number(answer).unwrap_or_else(|| panic!("the library answered {answer}"))),
    }
}

fn counts(made: Made) -> Result<Counts, Refusal> {
    let Made { answer, steps, line_writes, word_writes } = made;
    accepted(answer, Counts { steps, line_writes: LineWrites(line_writes), word_writes: WordWrites(word_writes) })
}

/// The value of a key.
pub fn find(image: &[u8], key: u64) -> Result<u64, Refusal> {
    let Found { answer, value } = Board.find(image, key);
    accepted(answer, value)
}

/// Writes the steps that put an absent key into `list` (at least [`crate::LIST_WORDS`] words).
pub fn put(image: &[u8], list: &mut [u64], key: u64, value: u64) -> Result<Counts, Refusal> {
    counts(Board.put(image, list, key, value))
}

/// Writes the steps that give a present key another value.
pub fn set(image: &[u8], list: &mut [u64], key: u64, value: u64) -> Result<Counts, Refusal> {
    counts(Board.set(image, list, key, value))
}

/// Writes the steps that take a present key away.
pub fn del(image: &[u8], list: &mut [u64], key: u64) -> Result<Counts, Refusal> {
    counts(Board.del(image, list, key))
}

/// Writes keys and values from a key on, rising, as many as the shorter buffer holds, and tells how many.
pub fn listing(image: &[u8], from: u64, keys: &mut [u64], values: &mut [u64]) -> Result<usize, Refusal> {
    let Listed { answer, count } = Board.listing(image, from, keys, values);
    accepted(answer, count as usize)
}

/// Judges the image and writes each leaf's smallest key and block number, in chain order.
pub fn recovery(image: &[u8], smallest: &mut [u64], blocks: &mut [u64]) -> Result<Tree, Refusal> {
    let Recovered { answer, leaves, entries } = Board.recovery(image, smallest, blocks);
    accepted(answer, Tree { leaves, entries })
}

/// Takes the first n steps of a list over the image, as the processor sees it.
pub fn run(image: &mut [u8], list: &[u64], n: u64) -> Result<(), Refusal> {
    accepted(Board.run(image, list, n), ())
}

/// Takes the first n steps as the memory holds them after a cut, given how many stores of each line arrived.
pub fn cut(image: &mut [u8], list: &[u64], n: u64, arrivals: &[u64]) -> Result<(), Refusal> {
    accepted(Board.cut(image, list, n, arrivals), ())
}

// SAFETY, for each call below: the pointers and lengths are those of live slices, which Rust keeps valid, aligned and
// apart for the length of the call; the library reads and writes inside them only and keeps none of them.
impl Calls for Board {
    fn find(&self, image: &[u8], key: u64) -> Found {
        unsafe { ffi::hut_find(image.as_ptr(), image.len(), key) }
    }

    fn put(&self, image: &[u8], list: &mut [u64], key: u64, value: u64) -> Made {
        unsafe { ffi::hut_put(image.as_ptr(), image.len(), list.as_mut_ptr(), list.len(), key, value) }
    }

    fn set(&self, image: &[u8], list: &mut [u64], key: u64, value: u64) -> Made {
        unsafe { ffi::hut_set(image.as_ptr(), image.len(), list.as_mut_ptr(), list.len(), key, value) }
    }

    fn del(&self, image: &[u8], list: &mut [u64], key: u64) -> Made {
        unsafe { ffi::hut_del(image.as_ptr(), image.len(), list.as_mut_ptr(), list.len(), key) }
    }

    fn listing(&self, image: &[u8], from: u64, keys: &mut [u64], values: &mut [u64]) -> Listed {
        let (keys_at, keys_len) = (keys.as_mut_ptr(), keys.len());
        let (values_at, values_len) = (values.as_mut_ptr(), values.len());
        unsafe { ffi::hut_listing(image.as_ptr(), image.len(), from, keys_at, keys_len, values_at, values_len) }
    }

    fn recovery(&self, image: &[u8], smallest: &mut [u64], blocks: &mut [u64]) -> Recovered {
        let (smallest_at, smallest_len) = (smallest.as_mut_ptr(), smallest.len());
        let (blocks_at, blocks_len) = (blocks.as_mut_ptr(), blocks.len());
        unsafe { ffi::hut_recovery(image.as_ptr(), image.len(), smallest_at, smallest_len, blocks_at, blocks_len) }
    }

    fn run(&self, image: &mut [u8], list: &[u64], n: u64) -> u64 {
        unsafe { ffi::hut_run(image.as_mut_ptr(), image.len(), list.as_ptr(), list.len(), n) }
    }

    fn cut(&self, image: &mut [u8], list: &[u64], n: u64, arrivals: &[u64]) -> u64 {
        let (arrivals_at, lines) = (arrivals.as_ptr(), arrivals.len());
        unsafe { ffi::hut_cut(image.as_mut_ptr(), image.len(), list.as_ptr(), list.len(), n, arrivals_at, lines) }
    }
}
