//! What 01 leaves out of the equality with the crate. The model finds these letters; the crate is
//! asked all the same, where that is safe, and what it did is counted and shown.

use crate::report;
use common::cut::are_told;
use common::oracle::{self, Reading};
use common::whole::Whole;
use model::{Answer, Block, Kind, Met, INDENTS, LENGTH, STYLE_WORDS};
use std::collections::BTreeMap;

#[derive(Debug, Clone, Copy, PartialEq, Eq, PartialOrd, Ord)]
pub enum Outside {
    TooLong,
    NotAscii,
    LargeSkip,
    NegativeSkip,
    IllFormed,
    LineSpacing,
    States,
    Fonts,
    Colours,
}

impl Outside {
    /// None for a letter in 01's domain.
    pub fn of(answer: &Answer, met: &Met) -> Option<Outside> {
        match answer.refusal.number {
            1 => Some(Outside::TooLong),
            2 => Some(Outside::NotAscii),
            _ if met.large_skip => Some(Outside::LargeSkip),
            _ if met.negative_skip => Some(Outside::NegativeSkip),
            _ if met.ill_formed => Some(Outside::IllFormed),
            15 => Some(Outside::LineSpacing),
            16 => Some(Outside::States),
            17 => Some(Outside::Fonts),
            18 => Some(Outside::Colours),
            _ => None,
        }
    }

    /// The crate takes other bytes and lengths, and under a large skip count asks for memory that
    /// it may not get, which ends the program.
    pub fn asked(self) -> bool {
        !matches!(self, Outside::TooLong | Outside::NotAscii | Outside::LargeSkip)
    }

    fn title(self) -> &'static str {
        match self {
            Outside::TooLong => "over 65,536 bytes (1)",
            Outside::NotAscii => "a byte above 127 (2)",
            Outside::LargeSkip => "a u under a skip count above 65,535",
            Outside::NegativeSkip => "a u under a negative skip count",
            Outside::IllFormed => "kept units that are not well-formed UTF-16",
            Outside::LineSpacing => "\\sl-2147483648 (15)",
            Outside::States => "more than 64 states (16)",
            Outside::Fonts => "more than 256 fonts (17)",
            Outside::Colours => "more than 256 colours (18)",
        }
    }
}

/// What a build of the crate did with a letter, beside the model's answer.
#[derive(Debug, Clone, Copy, PartialEq, Eq, PartialOrd, Ord)]
enum Did {
    Same,
    Other,
    Panicked,
}

#[derive(Default)]
struct Tally {
    letters: u64,
    /// For what both builds did, how many letters and the shortest of them.
    did: BTreeMap<[Did; 2], (u64, Vec<u8>)>,
}

#[derive(Default)]
pub struct Tallies(BTreeMap<Outside, Tally>);

impl Tallies {
    pub fn count(&mut self, outside: Outside) {
        self.0.entry(outside).or_default().letters += 1;
    }

    pub fn asked(
        &mut self,
        outside: Outside,
        letter: &[u8],
        answer: &Answer,
        says: &[Reading<Whole>; 2],
    ) {
        let did = says.each_ref().map(|reading| match reading {
            Reading::Panicked(_) => Did::Panicked,
            Reading::Answered(whole) if agrees(letter, Kind::Plain, answer, whole) => Did::Same,
            Reading::Answered(_) => Did::Other,
        });
        let tally = self.0.entry(outside).or_default();
        let (letters, shortest) = tally.did.entry(did).or_insert_with(|| (0, letter.to_vec()));
        *letters += 1;
        if letter.len() < shortest.len() {
            *shortest = letter.to_vec();
        }
    }

    pub fn print(&self) {
        println!(
            "\nOutside 01's domain: what the crate does there, and ours, on the shortest letters."
        );
        for (outside, tally) in &self.0 {
            println!("{}: {} letters", outside.title(), tally.letters);
            for ([off, on], (letters, letter)) in &tally.did {
                println!("  {letters} letters: overflow checks off {off:?}, on {on:?}");
                let text = std::str::from_utf8(letter).expect("a letter for the crate is ASCII");
                println!("    {}", report::escaped(letter));
                let says = report::builds(&oracle::whole_readings(text, false));
                println!("{}", says.replace("  crate", "      crate"));
                println!("      ours: {}", report::ours(letter));
            }
        }
    }
}

/// Whether the model's answer is the crate's, as far as the crate tells it: no indents but zeros.
pub fn agrees(letter: &[u8], kind: Kind, answer: &Answer, whole: &Whole) -> bool {
    match whole {
        Whole::Refused(number) => answer.refusal.number == *number,
        Whole::Read(document) => {
            let fonts = answer.fonts.iter().map(|font| (font[0], report::name(letter, font)));
            let told = document.fonts.iter().map(|(key, name)| (*key, name.as_slice()));
            answer.refusal.number == 0
                && are_told(&document.tokens, &answer.tokens)
                && fonts.eq(told)
                && answer.colours == document.colours
                && match kind {
                    Kind::Plain => answer.blocks == document.blocks,
                    _ => flush(&answer.blocks) == document.blocks,
                }
                && answer.text == document.text
        }
    }
}

/// Blocks without their indents; those that have one style then are one.
fn flush(blocks: &[Block]) -> Vec<Block> {
    let mut flush: Vec<Block> = Vec::new();
    for block in blocks {
        let mut block = *block;
        block[INDENTS].fill(0);
        match flush.last_mut() {
            Some(last) if last[..STYLE_WORDS] == block[..STYLE_WORDS] => {
                last[LENGTH] += block[LENGTH]
            }
            _ => flush.push(block),
        }
    }
    flush
}
