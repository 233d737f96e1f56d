//! The comparison of snippets, part by part.

use crate::judge::{Judge, Rooms};
use crate::letters::{around_rooms, lengths};
use crate::rule::{self, MOST};
use crate::{drawn, known, ours, texts};
use common::program::Plan;
use common::random::Random;
use common::{fragments, letters, oracle, standard_letters};
use std::time::Instant;

/// Differences that are printed in full for each part.
const PRINTED: u32 = 3;
/// Characters of short texts, which are tried in rooms of every size.
const SHORT: usize = 3;

/// True if there is no difference.
pub fn run(plan: &Plan) -> bool {
    let Plan { seed, count, depth } = *plan;
    println!("seed {seed}, count {count}, depth {depth}; {} is judged", ours::NAME);
    let mut judge = Judge::new(!seed);
    listed_texts(&mut judge, depth);
    drawn_texts(&mut judge, seed, count);
    oracle::quietly(|| {
        listed_letters(&mut judge, depth);
        drawn_letters(&mut judge, seed, count);
    });
    judge.seen.print();
    println!("calls: {}", judge.calls);
    println!("{} texts and letters compared, {} differences", judge.tried, judge.differences);
    judge.differences == 0
}

fn listed_texts(judge: &mut Judge, depth: usize) {
    type Family = fn(&mut texts::Sink);
    const AT_LIMIT: [(&str, Family); 6] = [
        ("spaces around the limit", texts::spaced),
        ("wide around the limit", texts::wide),
        ("words around the limit", texts::words),
        ("white space alone", texts::white_alone),
        ("each byte", texts::each_byte),
        ("long texts", texts::long),
    ];
    part(judge, "known answers", |judge| {
        known::all().iter().for_each(|known| judge.known(known));
    });
    part(judge, "all short texts", |judge| {
        texts::every_text(depth, &mut |text| with_every_limit(judge, text));
    });
    part(judge, "all short bytes", |judge| {
        texts::every_bytes(depth + 1, &mut |text| with_every_limit(judge, text));
    });
    for (name, family) in AT_LIMIT {
        part(judge, name, |judge| {
            family(&mut |text| {
                judge.text(text, &[MOST - 1, MOST + 1, usize::MAX], Rooms::Around);
            });
        });
    }
}

/// From none to one more than all characters.
fn with_every_limit(judge: &mut Judge, text: &[u8]) {
    let characters = rule::starts(text).count();
    let limits: Vec<usize> = (0..=characters + 1).collect();
    let rooms = if characters <= SHORT { Rooms::Every } else { Rooms::Ample };
    judge.text(text, &limits, rooms);
}

fn drawn_texts(judge: &mut Judge, seed: u64, count: usize) {
    let random = |salt: u64| Random::new(seed ^ salt);
    let mut drawn = |name, salt, draw: fn(&mut Random) -> Vec<u8>, count| {
        part(judge, name, |judge| {
            let mut random = random(salt);
            for _ in 0..count {
                let text = draw(&mut random);
                let limits = limits(&mut random, &text);
                let rooms = if random.once_in(4) { Rooms::Around } else { Rooms::Ample };
                judge.text(&text, &limits, rooms);
            }
        });
    };
    drawn("texts at random", 0x7E_0075, |random| drawn::text(random).into_bytes(), count);
    drawn("mostly white space", 0x3417_E000, |random| drawn::dense(random).into_bytes(), count / 2);
    drawn("bytes at random", 0xB_17E5, drawn::bytes, count / 2);
}

/// A small limit, one around the text's characters, one around those that remain, and one larger
/// than any text.
fn limits(random: &mut Random, text: &[u8]) -> [usize; 4] {
    let all = rule::starts(text).count();
    let remain = rule::starts(&rule::of_bytes(text, usize::MAX)).count();
    let large = [1 << 31, 1 << 32, usize::MAX - 1, usize::MAX];
    let around = |random: &mut Random, count: usize| (count + random.below(4)).saturating_sub(2);
    [random.below(20), random.below(all + 3), around(random, remain), *random.pick(&large)]
}

fn listed_letters(judge: &mut Judge, depth: usize) {
    part(judge, "telling letters", |judge| {
        let telling = fragments::SAMPLES.iter().chain(fragments::TELLING);
        for letter in telling.chain(standard_letters::TELLING) {
            judge.letter_in(letter.as_bytes(), Rooms::Every);
        }
    });
    part(judge, "states, fonts, colours", |judge| {
        fragments::limits(&mut |letter| judge.letter(letter));
    });
    part(judge, "the extractor's rooms", |judge| {
        around_rooms(&mut |letter| judge.letter_in(letter, Rooms::Around));
    });
    part(judge, "lengths of letters", |judge| {
        lengths(&mut |letter| judge.letter_in(letter, Rooms::Around));
    });
    part(judge, "all strings of marks", |judge| {
        letters::every_string(letters::MARKS, depth, &mut |letter| judge.letter(letter));
    });
}

fn drawn_letters(judge: &mut Judge, seed: u64, count: usize) {
    let random = |salt: u64| Random::new(seed ^ salt);
    part(judge, "letters of words", |judge| {
        let mut random = random(0x304D5);
        (0..count).for_each(|_| judge.letter(&drawn::letter_of_words(&mut random)));
    });
    part(judge, "letters by the grammars", |judge| {
        let mut random = random(0x6_4A3A);
        (0..count).for_each(|_| judge.letter(&drawn::letter(&mut random)));
    });
    part(judge, "letters, damaged", |judge| {
        let mut random = random(0xDA3A_6ED0);
        let mut whole = Vec::new();
        for turn in 0..count / 2 {
            if turn % 4 == 0 {
                let draw = if turn % 8 == 0 { drawn::letter_of_words } else { drawn::letter };
                whole = draw(&mut random);
            }
            judge.letter(&drawn::damaged_letter(&mut random, &whole));
        }
    });
}

fn part(judge: &mut Judge, name: &str, work: impl FnOnce(&mut Judge)) {
    let (tried, differences) = (judge.tried, judge.differences);
    let (calls, successes) = (judge.calls, judge.seen.successes());
    judge.to_print = PRINTED;
    judge.progress.start(name, tried);
    let start = Instant::now();
    work(judge);
    judge.finish();
    println!(
        "{name:27} {:9} tried {:9} calls {:9} successes {:6} differences {:6.1} s",
        judge.tried - tried,
        judge.calls - calls,
        judge.seen.successes() - successes,
        judge.differences - differences,
        start.elapsed().as_secs_f64()
    );
}
