//! The comparison, part by part.

use crate::judge::Judge;
use crate::limits;
use common::cut::SOURCE_LIMIT;
use common::program::Plan;
use common::random::Random;
use common::{grammar, letters, mutate, oracle};
use std::time::Instant;

/// Differences that are printed in full for each part.
const PRINTED: u32 = 3;

/// True if there is no difference.
pub fn run(plan: &Plan) -> bool {
    let Plan { seed, count, depth } = *plan;
    println!("seed {seed}, count {count}, depth {depth}");
    oracle::check_names();
    let mut judge = Judge::new(!seed);
    oracle::quietly(|| {
        listed(&mut judge, depth);
        part(&mut judge, "by the grammar", |judge| drawn(judge, seed, count));
        part(&mut judge, "damaged", |judge| damaged(judge, seed, count));
    });
    judge.seen.print();
    println!("calls:   {}", judge.calls);
    println!("{} letters compared, {} differences", judge.letters, judge.differences);
    judge.differences == 0
}

fn listed(judge: &mut Judge, depth: usize) {
    type Family = fn(&mut letters::Sink);
    const FAMILIES: [(&str, Family); 6] = [
        ("each byte in each place", letters::every_byte_everywhere),
        ("names and near misses", letters::names_and_near_misses),
        ("names but a byte", letters::names_but_a_byte),
        ("hex pairs", letters::every_hex_pair),
        ("numbers", letters::numbers),
        ("long letters", letters::long),
    ];
    part(judge, "all strings of marks", |judge| {
        letters::every_string(letters::MARKS, depth, &mut |letter| judge.letter(letter))
    });
    part(judge, "all strings of white space", |judge| {
        letters::every_string(letters::SPACES, depth, &mut |letter| judge.letter(letter))
    });
    part(judge, "all strings of returns", |judge| {
        letters::every_string(letters::RETURNS, depth + 1, &mut |letter| judge.letter(letter))
    });
    for (name, family) in FAMILIES {
        part(judge, name, |judge| family(&mut |letter| judge.letter(letter)));
    }
    part(judge, "bytes above 127", limits::bytes_above_127);
    part(judge, "around 65,536 bytes", limits::length);
}

fn part(judge: &mut Judge, name: &str, work: impl FnOnce(&mut Judge)) {
    let (letters, differences) = (judge.letters, judge.differences);
    let successes = judge.seen.successes();
    judge.to_print = PRINTED;
    let start = Instant::now();
    work(judge);
    println!(
        "{name:27} {:9} letters {:9} successes {:6} differences {:6.1} s",
        judge.letters - letters,
        judge.seen.successes() - successes,
        judge.differences - differences,
        start.elapsed().as_secs_f64()
    );
}

fn drawn(judge: &mut Judge, seed: u64, count: usize) {
    let mut random = Random::new(seed);
    for _ in 0..count {
        let size = size(&mut random);
        let mut letter = grammar::letter(&mut random, size);
        letter.truncate(SOURCE_LIMIT);
        judge.letter(&letter);
    }
}

fn damaged(judge: &mut Judge, seed: u64, count: usize) {
    let mut random = Random::new(seed ^ 0xDA3A_6ED0);
    let mut letter = Vec::new();
    for turn in 0..count {
        if turn % 4 == 0 {
            let size = size(&mut random);
            letter = grammar::letter(&mut random, size);
        }
        judge.letter(&mutate::mutated(&mut random, &letter, SOURCE_LIMIT));
    }
}

/// Mostly short: there each rule meets each other soonest.
fn size(random: &mut Random) -> usize {
    match random.below(1000) {
        0..750 => random.between(2, 80),
        750..960 => random.between(80, 1_000),
        960..999 => random.between(1_000, 8_000),
        _ => random.between(8_000, SOURCE_LIMIT),
    }
}
