//! Two implementations as one: each call is made on both, over buffers alike, and all they give and leave is compared.
use crate::answers::{Found, Listed, Made, Recovered};
use crate::calls::Calls;
use std::cell::Cell;
use std::fmt::Debug;

/// `judge`'s answers, after `tried` gave the same.
pub struct Both<A, B> {
    judge: A,
    tried: B,
    calls: Cell<usize>,
}

/// A copy of a buffer between guards, at a shifting place, so that a read or write outside it shows.
struct Lent<T> {
    all: Vec<T>,
    start: usize,
    end: usize,
}

const GUARD: usize = 8;

impl<T: Copy + PartialEq + Debug> Lent<T> {
    fn new(buffer: &[T], shift: usize, guard: T) -> Lent<T> {
        let (start, end) = (GUARD + shift, GUARD + shift + buffer.len());
        let mut all = vec![guard; end + GUARD];
        all[start..end].copy_from_slice(buffer);
        Lent { all, start, end }
    }

    fn lent(&self) -> &[T] {
        &self.all[self.start..self.end]
    }

    fn lent_mut(&mut self) -> &mut [T] {
        &mut self.all[self.start..self.end]
    }

    fn must_hold(&self, expected: &[T], what: &str) {
        let guard = self.all[0];
        let (before, after) = (&self.all[..self.start], &self.all[self.end..]);
        assert!(before.iter().chain(after).all(|&element| element == guard), "{what}: written outside the buffer");
        if self.lent() != expected {
            let at = self.lent().iter().zip(expected).position(|(left, right)| left != right).expect("equal lengths");
            panic!("{what}: element {at} is {:?}, expected {:?}", self.lent()[at], expected[at]);
        }
    }
}

impl<A: Calls, B: Calls> Both<A, B> {
    pub fn new(judge: A, tried: B) -> Both<A, B> {
        Both { judge, tried, calls: Cell::new(0) }
    }

    /// The image at any byte address: each call takes the next of sixteen.
    fn image(&self, image: &[u8]) -> Lent<u8> {
        self.calls.set(self.calls.get() + 1);
        Lent::new(image, self.calls.get() % 16, 0xA5)
    }

    fn change(
        &self,
        name: &str,
        image: &[u8],
        list: &mut [u64],
        call: impl Fn(&dyn Calls, &[u8], &mut [u64]) -> Made,
    ) -> Made {
        let (lent, mut lent_list) = (self.image(image), words(list));
        let got = call(&self.tried, lent.lent(), lent_list.lent_mut());
        let expected = call(&self.judge, image, list);
        assert_eq!(got, expected, "{name}");
        lent_list.must_hold(list, name);
        lent.must_hold(image, name);
        expected
    }
}

fn words(buffer: &[u64]) -> Lent<u64> {
    Lent::new(buffer, 0, 0xA5A5_5A5A_A5A5_5A5A)
}

impl<A: Calls, B: Calls> Calls for Both<A, B> {
    fn find(&self, image: &[u8], key: u64) -> Found {
        let lent = self.image(image);
        let got = self.tried.find(lent.lent(), key);
        let expected = self.judge.find(image, key);
        assert_eq!(got, expected, "find {key}");
        lent.must_hold(image, "find");
        expected
    }

    fn put(&self, image: &[u8], list: &mut [u64], key: u64, value: u64) -> Made {
        self.change("put", image, list, |calls, image, list| calls.put(image, list, key, value))
    }

    fn set(&self, image: &[u8], list: &mut [u64], key: u64, value: u64) -> Made {
        self.change("set", image, list, |calls, image, list| calls.set(image, list, key, value))
    }

    fn del(&self, image: &[u8], list: &mut [u64], key: u64) -> Made {
        self.change("del", image, list, |calls, image, list| calls.del(image, list, key))
    }

    fn listing(&self, image: &[u8], from: u64, keys: &mut [u64], values: &mut [u64]) -> Listed {
        let (lent, mut lent_keys, mut lent_values) = (self.image(image), words(keys), words(values));
        let got = self.tried.listing(lent.lent(), from, lent_keys.lent_mut(), lent_values.lent_mut());
        let expected = self.judge.listing(image, from, keys, values);
        assert_eq!(got, expected, "listing from {from}");
        lent_keys.must_hold(keys, "listing's keys");
        lent_values.must_hold(values, "listing's values");
        lent.must_hold(image, "listing");
        expected
    }

    fn recovery(&self, image: &[u8], smallest: &mut [u64], blocks: &mut [u64]) -> Recovered {
        let (lent, mut lent_smallest, mut lent_blocks) = (self.image(image), words(smallest), words(blocks));
        let got = self.tried.recovery(lent.lent(), lent_smallest.lent_mut(), lent_blocks.lent_mut());
        let expected = self.judge.recovery(image, smallest, blocks);
        assert_eq!(got, expected, "recovery");
        lent_smallest.must_hold(smallest, "recovery's smallest keys");
        lent_blocks.must_hold(blocks, "recovery's block numbers");
        lent.must_hold(image, "recovery");
        expected
    }

    fn run(&self, image: &mut [u8], list: &[u64], n: u64) -> u64 {
        let (mut lent, lent_list) = (self.image(image), words(list));
        let got = self.tried.run(lent.lent_mut(), lent_list.lent(), n);
        let expected = self.judge.run(image, list, n);
        assert_eq!(got, expected, "run of {n}");
        lent.must_hold(image, "run");
        lent_list.must_hold(list, "run's list");
        expected
    }

    fn cut(&self, image: &mut [u8], list: &[u64], n: u64, arrivals: &[u64]) -> u64 {
        let (mut lent, lent_list, lent_arrivals) = (self.image(image), words(list), words(arrivals));
        let got = self.tried.cut(lent.lent_mut(), lent_list.lent(), n, lent_arrivals.lent());
        let expected = self.judge.cut(image, list, n, arrivals);
        assert_eq!(got, expected, "cut of {n} with {arrivals:?}");
        lent.must_hold(image, "cut");
        lent_list.must_hold(list, "cut's list");
        lent_arrivals.must_hold(arrivals, "cut's arrivals");
        expected
    }
}
