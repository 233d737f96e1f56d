//! The comparison of standard reading, part by part.

use crate::parts::{part, Judging};
use crate::standard_judge::Judge;
use crate::{ours, pairs, read, small};
use common::cut::SOURCE_LIMIT;
use common::program::Plan;
use common::random::Random;
use common::{fragments, grammar, letters, mutate, standard_grammar, standard_letters};
use model::{samples, Kind};

/// How often the hole of a listed letter is filled.
const FILLS: usize = 4;

/// Pairs that lack a premise, and that our side must tell apart.
const KNOWN: [[&str; 2]; 5] = [
    ["{a{\\*x}b}", "{a{\\*{x}b}"],
    ["{a{\\*x}b}", "{a{\\*x\\}b}"],
    ["{a{\\*x}b}", "{a{ \\*x}b}"],
    ["{\\u65{\\*x}b}", "{\\u65 b}"],
    ["{a{\\stylesheet x}b}", "{a{\\stylesheet1 x}b}"],
];

/// True if there is no difference, the model gives the known answers and known pairs are seen.
pub fn run(plan: &Plan) -> bool {
    let Plan { seed, count, depth } = *plan;
    println!("seed {seed}, count {count}, depth {depth}; {} is judged", ours::NAME);
    let known = known_answers() & known_pairs();
    let mut judge = Judge::new(!seed);
    sequences(&mut judge, depth);
    listed(&mut judge, depth);
    drawn(&mut judge, seed, count);
    agreeing(&mut judge, seed, count);
    hidden(&mut judge, seed, count / 4);
    judge.seen.print();
    println!("calls: {}", judge.queue.calls + judge.calls);
    let differences = judge.differences().count;
    println!("{} letters compared, {differences} differences", judge.letters);
    known && differences == 0
}

fn known_answers() -> bool {
    let (count, wrong) = samples::check();
    println!("{} of {count} known answers given by the model", count - wrong.len());
    wrong.iter().for_each(|letter| println!("NOT GIVEN: {letter:?}"));
    wrong.is_empty()
}

fn known_pairs() -> bool {
    let apart = KNOWN.iter().filter(|letters| {
        let letters = letters.map(|letter| letter.as_bytes().to_vec());
        !Judge::new(0).alike(&letters, &small::ample(100))
    });
    let apart = apart.count();
    println!("{apart} of {} known pairs outside the premise told apart", KNOWN.len());
    apart == KNOWN.len()
}

/// Small alphabets are tried one deeper than the one of everything.
fn sequences(judge: &mut Judge, depth: usize) {
    let deeper = depth + 1;
    part(judge, "all strings of bytes", |judge| {
        letters::every_string(standard_letters::BYTES, deeper, &mut |letter| judge.letter(letter))
    });
    for (alphabets, depth) in
        [(standard_letters::EVERYTHING.as_slice(), depth), (&standard_letters::ALPHABETS, deeper)]
    {
        for alphabet in alphabets {
            part(judge, &format!("all sequences, {}", alphabet.name), |judge| {
                fragments::every_sequence(alphabet, depth, &mut |letter| judge.letter(letter))
            });
        }
    }
}

fn listed(judge: &mut Judge, depth: usize) {
    type Family = fn(&mut letters::Sink);
    const FAMILIES: [(&str, Family); 17] = [
        ("hex escapes and symbols", standard_letters::hex_and_symbols),
        ("skip counts and units", standard_letters::counts_and_units),
        ("long runs", standard_letters::long),
        ("long skips", standard_letters::long_skips),
        ("each byte in each place", |sink| telling().for_each(|l| every_byte_in(l, sink))),
        ("each fault in each place", faults_everywhere),
        ("words with numbers", fragments::words_with_numbers),
        ("pairs of words", fragments::pairs_of_words),
        ("states, fonts, colours", fragments::limits),
        ("names and near misses", letters::names_and_near_misses),
        ("names but a byte", letters::names_but_a_byte),
        ("hex pairs", letters::every_hex_pair),
        ("numbers", letters::numbers),
        ("long letters", letters::long),
        ("the cutter's letters", letters::every_byte_everywhere),
        ("telling letters of read", |sink| read::telling().for_each(|l| every_byte_in(l, sink))),
        ("bytes above 127, length", read::outer_limits),
    ];
    part(judge, "all strings of returns", |judge| {
        letters::every_string(letters::RETURNS, depth + 3, &mut |letter| judge.letter(letter))
    });
    part(judge, "rooms of every size", |judge| {
        telling().for_each(|letter| judge.letter_in_every_size(letter.as_bytes()))
    });
    for (name, family) in FAMILIES {
        part(judge, name, |judge| family(&mut |letter| judge.letter(letter)));
    }
}

/// The model's samples, and letters with a turn of a rule in each.
fn telling() -> impl Iterator<Item = &'static str> {
    let samples = samples::SAMPLES.iter().map(|(letter, _)| *letter);
    samples.chain(standard_letters::TELLING.iter().copied())
}

/// Each byte in each place of a letter, put in and put over.
fn every_byte_in(letter: &str, sink: &mut letters::Sink) {
    letters::every_byte_in(letter.as_bytes(), sink);
}

/// Each refusal, wherever its slice stands.
fn faults_everywhere(sink: &mut letters::Sink) {
    telling().for_each(|letter| fragments::faults_everywhere(letter, sink));
}

fn drawn(judge: &mut Judge, seed: u64, count: usize) {
    let random = |salt: u64| Random::new(seed ^ salt);
    part(judge, "sequences at random", |judge| {
        let mut random = random(0x50_0C);
        let alphabets = &standard_letters::ALPHABETS;
        (0..count).for_each(|_| judge.letter(&fragments::soup_of(alphabets, &mut random, 24)));
    });
    part(judge, "by the grammar", |judge| {
        let mut random = random(0x57A_DA6D);
        (0..count).for_each(|_| judge.letter(&letter(&mut random)));
    });
    part(judge, "by the grammar, damaged", |judge| {
        let mut random = random(0xDA3A_57A0);
        let mut whole = Vec::new();
        for turn in 0..count {
            if turn % 4 == 0 {
                whole = letter(&mut random);
            }
            judge.letter(&mutate::mutated(&mut random, &whole, SOURCE_LIMIT));
        }
    });
    part(judge, "by the other grammars", |judge| {
        let mut random = random(0x07E4_57A0);
        for _ in 0..count / 8 {
            judge.letter(&read::letter(&mut random));
            let mut letter = grammar::letter(&mut random, 80);
            letter.truncate(SOURCE_LIMIT);
            judge.letter(&letter);
        }
    });
}

/// A letter of the grammar, mostly short.
fn letter(random: &mut Random) -> Vec<u8> {
    let size = read::size(random);
    let mut letter = standard_grammar::letter(random, size);
    if random.once_in(4) {
        let front = random.pick(&[" ", "\r\n", "\n\n\t", " \x0b"]).as_bytes();
        letter.splice(0..0, front.iter().copied());
    }
    letter.truncate(SOURCE_LIMIT);
    letter
}

/// Letters that standard and paragraph reading must answer alike.
fn agreeing(judge: &mut Judge, seed: u64, count: usize) {
    let mut random = Random::new(seed ^ 0xA64E_E164);
    part(judge, "alike by paragraphs", |judge| {
        for _ in 0..count {
            let size = random.between(2, 120);
            judge.agreeing(&standard_grammar::agreeing(&mut random, size));
        }
    });
}

/// Pairs of letters that differ only in what is hidden.
fn hidden(judge: &mut Judge, seed: u64, count: usize) {
    const KINDS: [Kind; 1] = [Kind::Standard];
    let mut random = Random::new(seed ^ 0x41D_DE41);
    part(judge, "hidden, telling letters", |judge| {
        for letter in telling().map(str::as_bytes) {
            for place in (0..=letter.len()).flat_map(|place| [place; FILLS]) {
                let pair = pairs::with_holes(&mut random, letter, &[place], &KINDS);
                pair.iter().for_each(|pair| judge.pair(pair));
            }
        }
    });
    part(judge, "hidden, by the grammar", |judge| {
        (0..count).for_each(|_| judge.pair(&pairs::draw(&mut random, letter, &KINDS)));
    });
}
