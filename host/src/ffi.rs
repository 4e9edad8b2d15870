//! The C interface of the proved library, name for name as `include/stringhut.h` has it. Only `board` calls it.
use crate::answers::{Found, Listed, Made, Recovered};

unsafe extern "C" {
    pub fn hut_find(image: *const u8, bytes: usize, key: u64) -> Found;
    pub fn hut_put(image: *const u8, bytes: usize, list: *mut u64, words: usize, key: u64, value: u64) -> Made;
    pub fn hut_set(image: *const u8, bytes: usize, list: *mut u64, words: usize, key: u64, value: u64) -> Made;
    pub fn hut_del(image: *const u8, bytes: usize, list: *mut u64, words: usize, key: u64) -> Made;
    pub fn hut_listing(
        image: *const u8,
        bytes: usize,
        from: u64,
        keys: *mut u64,
        keys_len: usize,
        values: *mut u64,
        values_len: usize,
    ) -> Listed;
    pub fn hut_recovery(
        image: *const u8,
        bytes: usize,
        smallest: *mut u64,
        smallest_len: usize,
        blocks: *mut u64,
        blocks_len: usize,
    ) -> Recovered;
    pub fn hut_run(image: *mut u8, bytes: usize, list: *const u64, words: usize, n: u64) -> u64;
    pub fn hut_cut(
        image: *mut u8,
        bytes: usize,
        list: *const u64,
        words: usize,
        n: u64,
        arrivals: *const u64,
        lines: usize,
    ) -> u64;
}
