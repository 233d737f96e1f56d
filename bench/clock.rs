//! Times as medians over rounds.

use std::time::{Duration, Instant};

/// A sample repeats its call until it is about this long.
const SAMPLE: Duration = Duration::from_micros(200);

/// Nanoseconds of one call, after one that is not timed.
pub fn time(mut call: impl FnMut()) -> f64 {
    call();
    let start = Instant::now();
    let mut calls = 0;
    let mut batch = 1;
    loop {
        for _ in 0..batch {
            call();
        }
        calls += batch;
        let passed = start.elapsed();
        if passed >= SAMPLE {
            return passed.as_nanos() as f64 / f64::from(calls);
        }
        // The clock is read seldom enough not to count.
        batch = calls;
    }
}

/// The times of one thing on several sides: a sample for each round, and in it a number for each
/// side, which is none where that side cannot do it.
pub struct Times<const SIDES: usize>(Vec<[f64; SIDES]>);

impl<const SIDES: usize> Times<SIDES> {
    pub fn new() -> Self {
        Times(Vec::new())
    }

    /// Takes each side once. They come first by turns, since what one did may help the next.
    pub fn round(&mut self, mut time: impl FnMut(usize) -> f64) {
        let first = self.0.len();
        let mut sample = [f64::NAN; SIDES];
        for turn in 0..SIDES {
            let side = (first + turn) % SIDES;
            sample[side] = time(side);
        }
        self.0.push(sample);
    }

    pub fn rounds(&self) -> usize {
        self.0.len()
    }

    /// The shortest time of a side yet: a machine that was busy for a while does not lengthen it.
    pub fn shortest(&self, side: usize) -> f64 {
        self.0.iter().map(|sample| sample[side]).fold(f64::INFINITY, f64::min)
    }

    pub fn median(&self, side: usize) -> f64 {
        median(self.0.iter().map(|sample| sample[side]))
    }

    /// How many times `side` is as fast as `other`: the median of the rounds' own ratios.
    pub fn times(&self, side: usize, other: usize) -> f64 {
        median(self.0.iter().map(|sample| sample[other] / sample[side]))
    }

    /// How many times longer `side` takes than in `others`, by the rounds that both have.
    pub fn longer(&self, others: &Self, side: usize) -> f64 {
        median(self.0.iter().zip(&others.0).map(|(sample, other)| sample[side] / other[side]))
    }
}

fn median(values: impl Iterator<Item = f64>) -> f64 {
    let mut values: Vec<f64> = values.collect();
    values.sort_by(f64::total_cmp);
    values[values.len() / 2]
}
