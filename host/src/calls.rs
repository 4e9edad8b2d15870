//! The eight public calls as one trait, so that the drivers of `trial` can be turned on any implementation.
use crate::answers::{Found, Listed, Made, Recovered};

/// The names, orders and shapes of the C interface, with slices for its pointers and lengths.
pub trait Calls {
    fn find(&self, image: &[u8], key: u64) -> Found;
    fn put(&self, image: &[u8], list: &mut [u64], key: u64, value: u64) -> Made;
    fn set(&self, image: &[u8], list: &mut [u64], key: u64, value: u64) -> Made;
    fn del(&self, image: &[u8], list: &mut [u64], key: u64) -> Made;
    fn listing(&self, image: &[u8], from: u64, keys: &mut [u64], values: &mut [u64]) -> Listed;
    fn recovery(&self, image: &[u8], smallest: &mut [u64], blocks: &mut [u64]) -> Recovered;
    fn run(&self, image: &mut [u8], list: &[u64], n: u64) -> u64;
    fn cut(&self, image: &mut [u8], list: &[u64], n: u64, arrivals: &[u64]) -> u64;
}
