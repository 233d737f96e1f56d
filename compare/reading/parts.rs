//! What the comparisons of letters and of pairs share: their parts, and differences counted.

use std::time::Instant;

/// Differences that are printed in full for each part.
const PRINTED: u32 = 3;

#[derive(Default)]
pub struct Differences {
    pub count: u64,
    /// How many may still be printed.
    to_print: u32,
    /// The last letter or pair with a difference: each counts once.
    last: u64,
}

impl Differences {
    /// A difference in the letter or pair of such a number, from 1.
    pub fn found(&mut self, number: u64, told: impl FnOnce() -> String) {
        if self.last == number {
            return;
        }
        self.last = number;
        self.count += 1;
        if self.to_print > 0 {
            self.to_print -= 1;
            println!("{}", told());
        }
    }
}

pub trait Judging {
    const UNIT: &str;

    /// How many letters or pairs were compared, and how many of them were read.
    fn compared(&self) -> [u64; 2];

    fn differences(&mut self) -> &mut Differences;

    /// Makes the calls that wait.
    fn finish(&mut self);
}

/// Runs a part of a comparison, and prints what it came to.
pub fn part<J: Judging>(judge: &mut J, name: &str, work: impl FnOnce(&mut J)) {
    let [compared, successes] = judge.compared();
    let differences = judge.differences();
    let before = differences.count;
    differences.to_print = PRINTED;
    let start = Instant::now();
    work(judge);
    judge.finish();
    let [compared_now, successes_now] = judge.compared();
    println!(
        "{name:27} {:9} {} {:9} successes {:6} differences {:6.1} s",
        compared_now - compared,
        J::UNIT,
        successes_now - successes,
        judge.differences().count - before,
        start.elapsed().as_secs_f64()
    );
}
