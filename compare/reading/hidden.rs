//! Hidden stays hidden: pairs of letters that differ only inside hidden groups, part by part.

use crate::alike::{premise, Judge};
use crate::parts::{part, Judging};
use crate::{ours, pairs, read};
use common::random::Random;
use common::{fragments, grammar, oracle};
use model::KINDS;

/// How often the holes of a listed letter are filled.
const FILLS: usize = 8;

/// Pairs that each lack one premise, and that each side must tell apart; the last two by paragraphs
/// alone.
const KNOWN: [(&str, [&str; 2]); 10] = [
    ("not cut", ["{a{\\*x}b}", "{a{\\*{\\'zz}}b}"]),
    ("no brace of its own", ["{a{\\*x}b}", "{a{\\*{x}b}"]),
    ("its brace escaped", ["{a{\\*x}b}", "{a{\\*x\\}b}"]),
    ("not reached", ["{{\\fonttbl{\\f0 A;}{\\*\\f1 B;}}t}", "{{\\fonttbl{\\f0 A;}{\\*\\f1 C;}}t}"]),
    ("no mark in one", ["{a{\\*x}b}", "{a{\\b x}b}"]),
    ("the mark behind text", ["{a{\\*x}b}", "{a{x\\*}b}"]),
    ("a stylesheet with a number", ["{a{\\stylesheet x}b}", "{a{\\stylesheet1 x}b}"]),
    ("no group in one", ["{\\u8212 {\\*x}\\u65 }", "{\\u8212 \\u65 }"]),
    ("a line break before it in one", ["{a\\\r{\\*x}b}", "{a\\~\r{\\*x}b}"]),
    ("a text before its mark", ["{a{\\\rc\\stylesheet x}b}", "{a{\\\rc\\stylesheet y}b}"]),
];

/// True if there is no difference, and the known ones are seen.
pub fn run(seed: u64, count: usize) -> bool {
    println!("seed {seed}, count {count}; {} is judged", ours::NAME);
    oracle::check_names();
    let mut judge = Judge::new(!seed);
    let known = oracle::quietly(|| {
        let known = known_pairs();
        listed(&mut judge, seed);
        drawn(&mut judge, seed, count);
        known
    });
    judge.print();
    known && judge.differences().count == 0
}

fn known_pairs() -> bool {
    let apart = KNOWN.iter().filter(|(name, letters)| told_apart(name, letters)).count();
    println!("{apart} of {} known pairs outside the premise told apart by each side", KNOWN.len());
    apart == KNOWN.len()
}

/// Whether a pair is outside the premise, and each side shows it to be.
fn told_apart(name: &str, letters: &[&str; 2]) -> bool {
    let letters = letters.map(|letter| letter.as_bytes().to_vec());
    let mut judge = Judge::new(0);
    judge.compare(&letters);
    judge.finish();
    let outside = KINDS.into_iter().any(|kind| !premise(&letters, kind));
    let apart = judge.apart.iter().all(|count| *count > 0);
    if !outside || !apart {
        println!(
            "NOT TOLD APART: {name}; outside {outside}, differences of the crate and ours {:?}",
            judge.apart
        );
    }
    outside && apart
}

fn listed(judge: &mut Judge, seed: u64) {
    let mut random = Random::new(seed ^ 0x7E11_1216);
    part(judge, "each place, telling letters", |judge| {
        for letter in read::telling().map(str::as_bytes) {
            for place in (0..=letter.len()).flat_map(|place| [place; FILLS]) {
                let pair = pairs::with_holes(&mut random, letter, &[place], &KINDS);
                pair.iter().for_each(|pair| judge.pair(pair));
            }
        }
    });
    part(judge, "states, fonts, colours", |judge| {
        fragments::limits(&mut |letter| {
            for _ in 0..FILLS {
                // Most places are in a table: one before it is always reached.
                let mut places = pairs::places(&mut random, letter);
                places.insert(0, places[0].min(1));
                let pair = pairs::with_holes(&mut random, letter, &places, &KINDS);
                pair.iter().for_each(|pair| judge.pair(pair));
            }
        });
    });
}

fn drawn(judge: &mut Judge, seed: u64, count: usize) {
    type Letters = fn(&mut Random) -> Vec<u8>;
    const SOURCES: [(&str, usize, Letters); 3] = [
        ("by the grammar", 6, read::letter),
        ("sequences at random", 3, |random| fragments::soup(random, 16)),
        ("by the cutter's grammar", 1, |random| grammar::letter(random, 60)),
    ];
    for (name, tenths, letters) in SOURCES {
        let mut random = Random::new(seed ^ 0x41D_DE40 ^ tenths as u64);
        part(judge, name, |judge| {
            (0..count * tenths / 10)
                .for_each(|_| judge.pair(&pairs::draw(&mut random, letters, &KINDS)));
        });
    }
}
