//! Runs to lend: each lies between elements that nobody may touch, and starts anywhere.

use std::hint::black_box;

use trials::random::Random;

use super::{agree_octets, Mismatch};

#[derive(Debug, Clone, PartialEq, Eq)]
pub struct Lent<T> {
    /// The run with what lies before and after it.
    all: Vec<T>,
    before: usize,
    after: usize,
}

impl<T: Clone> Lent<T> {
    /// A run with these contents; what lies around it comes from `some`.
    pub fn around(r: &mut Random, run: &[T], some: fn(u64) -> T) -> Self {
        let (before, after) = (r.count(1, 8), r.count(1, 4));
        let mut all = Vec::with_capacity(before + run.len() + after);
        all.extend((0..before).map(|_| some(r.next())));
        all.extend_from_slice(run);
        all.extend((0..after).map(|_| some(r.next())));
        Lent { all, before, after }
    }

    /// A run of so many elements that holds garbage.
    pub fn garbage(r: &mut Random, n: usize, some: fn(u64) -> T) -> Self {
        let run: Vec<T> = (0..n).map(|_| some(r.next())).collect();
        Lent::around(r, &run, some)
    }

    /// The first so many elements; the others then lie after the run.
    pub fn shortened(mut self, n: usize) -> Self {
        self.after += self.run().len() - n;
        self
    }

    /// The run with what lies around it.
    pub fn all(&self) -> &[T] {
        &self.all
    }

    /// How many elements lie before the run.
    pub fn before(&self) -> usize {
        self.before
    }

    pub fn run(&self) -> &[T] {
        &self.all[self.before..self.all.len() - self.after]
    }

    pub fn run_mut(&mut self) -> &mut [T] {
        let end = self.all.len() - self.after;
        &mut self.all[self.before..end]
    }
}

/// Octets lent for reading, beside a copy of them.
pub struct ReadOnly {
    lent: Lent<u8>,
    copy: Lent<u8>,
}

impl ReadOnly {
    pub fn new(r: &mut Random, octets: &[u8]) -> Self {
        ReadOnly::of(Lent::around(r, octets, |n| n as u8))
    }

    pub fn of(lent: Lent<u8>) -> Self {
        let copy = lent.clone();
        ReadOnly { lent, copy }
    }

    pub fn run(&self) -> &[u8] {
        self.lent.run()
    }

    /// Are the octets, and those around them, what they were? The compiler takes that for granted; the library is given
    /// plain pointers.
    pub fn stayed(&self, what: &str) -> Result<(), Mismatch> {
        let now = black_box(self.lent.all());
        agree_octets(what, ("after", now), ("before", self.copy.all()))
    }
}
