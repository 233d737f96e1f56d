//! The comparison of whole readings, part by part.

use crate::judge::Judge;
use crate::ours;
use crate::parts::{part, Judging};
use common::cut::SOURCE_LIMIT;
use common::program::Plan;
use common::random::Random;
use common::{fragments, grammar, letters, mutate, oracle, reading_grammar};

const HEADING: &str = "\
letters on which both builds of the crate were compared,
letters that the model judged alone, those of both whose place is not 0,
calls in small rooms (by the model), the same for paragraph reading.
A number with zeros only was not covered.";

/// True if there is no difference.
pub fn run(plan: &Plan) -> bool {
    let Plan { seed, count, depth } = *plan;
    println!("seed {seed}, count {count}, depth {depth}; {} is judged", ours::NAME);
    oracle::check_names();
    let mut judge = Judge::new(!seed);
    oracle::quietly(|| {
        sequences(&mut judge, depth);
        listed(&mut judge, depth);
        drawn(&mut judge, seed, count);
        judge.outside.print();
    });
    judge.seen.print(HEADING, "model");
    println!("calls: {}", judge.queue.calls);
    let differences = judge.differences().count;
    println!("{} letters compared, {differences} differences", judge.letters);
    differences == 0
}

fn sequences(judge: &mut Judge, depth: usize) {
    for alphabet in &fragments::ALPHABETS {
        part(judge, &format!("all sequences, {}", alphabet.name), |judge| {
            fragments::every_sequence(alphabet, depth, &mut |letter| judge.letter(letter))
        });
    }
}

fn listed(judge: &mut Judge, depth: usize) {
    type Family = fn(&mut letters::Sink);
    const FAMILIES: [(&str, Family); 9] = [
        ("words with numbers", fragments::words_with_numbers),
        ("pairs of words", fragments::pairs_of_words),
        ("states, fonts, colours", fragments::limits),
        ("each byte in each place", every_byte_everywhere),
        ("each fault in each place", faults_everywhere),
        ("bytes above 127, length", outer_limits),
        ("the cutter's letters", letters::every_byte_everywhere),
        ("the cutter's numbers", letters::numbers),
        ("long letters", letters::long),
    ];
    part(judge, "all strings of returns", |judge| {
        letters::every_string(letters::RETURNS, depth + 2, &mut |letter| judge.letter(letter))
    });
    part(judge, "rooms of every size", |judge| {
        telling().for_each(|letter| judge.letter_in_every_size(letter.as_bytes()))
    });
    for (name, family) in FAMILIES {
        part(judge, name, |judge| family(&mut |letter| judge.letter(letter)));
    }
}

pub fn telling() -> impl Iterator<Item = &'static str> {
    fragments::SAMPLES.iter().chain(fragments::TELLING).copied()
}

/// Each byte below 128 in each place of each telling letter, put in and put over.
fn every_byte_everywhere(sink: &mut letters::Sink) {
    for letter in telling().map(str::as_bytes) {
        for (place, byte) in (0..=letter.len()).flat_map(|p| (0..128).map(move |b| (p, b))) {
            let mut put = letter.to_vec();
            put.insert(place, byte);
            sink(&put);
            if place < letter.len() {
                put.remove(place + 1);
                sink(&put);
            }
        }
    }
}

/// Each refusal, wherever its slice stands.
fn faults_everywhere(sink: &mut letters::Sink) {
    telling().for_each(|letter| fragments::faults_everywhere(letter, sink));
}

/// Refusals 1 and 2, and the longest letters that do not get them.
pub fn outer_limits(sink: &mut letters::Sink) {
    for letter in telling() {
        for (place, byte) in [(0, 128), (letter.len() / 2, 200), (letter.len(), 255)] {
            let mut put = letter.as_bytes().to_vec();
            put.insert(place, byte);
            sink(&put);
        }
    }
    for size in [SOURCE_LIMIT - 1, SOURCE_LIMIT, SOURCE_LIMIT + 1, 2 * SOURCE_LIMIT] {
        for unit in
            ["a", "\\b a\\b0 a", "\\li1 a\\li a", "{a}", "\\u8212 \\'41", "{\\*a}", "\u{e9}"]
        {
            sink(&letters::repeated(unit.as_bytes(), size));
        }
        sink(&vec![b' '; size]);
        sink(&[b"{a}".as_slice(), &vec![b'\n'; size - 3]].concat());
    }
}

fn drawn(judge: &mut Judge, seed: u64, count: usize) {
    let random = |salt: u64| Random::new(seed ^ salt);
    part(judge, "sequences at random", |judge| {
        let mut random = random(0x50_0B);
        (0..count).for_each(|_| {
            let letter = fragments::soup(&mut random, 24);
            judge.letter(&behind_front(&mut random, letter));
        });
    });
    part(judge, "by the grammar", |judge| {
        let mut random = random(0x6_4A3A);
        (0..count).for_each(|_| judge.letter(&letter(&mut random)));
    });
    part(judge, "by the grammar, damaged", |judge| {
        let mut random = random(0xDA3A_6ED0);
        let mut whole = Vec::new();
        for turn in 0..count {
            if turn % 4 == 0 {
                whole = letter(&mut random);
            }
            judge.letter(&mutate::mutated(&mut random, &whole, SOURCE_LIMIT));
        }
    });
    part(judge, "by the cutter's grammar", |judge| {
        let mut random = random(0xC0_77E4);
        for _ in 0..count / 4 {
            let size = size(&mut random);
            let mut letter = grammar::letter(&mut random, size);
            letter.truncate(SOURCE_LIMIT);
            judge.letter(&letter);
        }
    });
}

/// A letter of the grammar, mostly short.
pub fn letter(random: &mut Random) -> Vec<u8> {
    let size = size(random);
    let letter = reading_grammar::letter(random, size);
    let mut letter = behind_front(random, letter);
    letter.truncate(SOURCE_LIMIT);
    letter
}

/// Now and then something in front that moves every place.
fn behind_front(random: &mut Random, letter: Vec<u8>) -> Vec<u8> {
    if !random.once_in(4) {
        return letter;
    }
    [random.pick(&fragments::FRONTS).as_bytes(), &letter].concat()
}

/// Mostly short: there each rule meets each other soonest.
pub fn size(random: &mut Random) -> usize {
    match random.below(10_000) {
        0..8_600 => random.between(2, 80),
        8_600..9_800 => random.between(80, 500),
        9_800..9_996 => random.between(500, 4_000),
        _ => random.between(4_000, SOURCE_LIMIT),
    }
}
