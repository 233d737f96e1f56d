//! The list of answers and its file.
//!
//! All numbers are u32, little endian. For each answer: the letter's length n, the words of the
//! room lent, the refusal number, its place, the token count c, then the n bytes and c records.

use common::oracle::{self, Reading};
use common::random::Random;
use model::{Cut, Kind, Refusal, Token, TOKEN_WORDS};
use std::collections::{BTreeMap, BTreeSet};

pub const LONGEST_LETTER: usize = 400;
pub const LARGEST_ROOM: usize = 600;
const LARGEST_FILE: usize = 500_000;
/// The numbers before a letter.
const HEAD: usize = 5;

/// A letter and the words of the room lent. The length stands first: short letters come first.
#[derive(PartialEq, Eq, PartialOrd, Ord)]
struct Call {
    length: usize,
    letter: Vec<u8>,
    words: usize,
}

/// The refusal, of number 0 for success, and the records of each call.
pub struct List {
    answers: BTreeMap<Call, (Refusal, Vec<Token>)>,
    bytes: usize,
    random: Random,
}

impl List {
    pub fn new(seed: u64) -> Self {
        List { answers: BTreeMap::new(), bytes: 0, random: Random::new(seed) }
    }

    pub fn len(&self) -> usize {
        self.answers.len()
    }

    /// Adds a letter in a room of about the right size.
    pub fn add(&mut self, letter: &[u8]) {
        let cut = answer(letter);
        let spares = [0, 0, 1, TOKEN_WORDS - 1, TOKEN_WORDS, TOKEN_WORDS + 1, 2 * TOKEN_WORDS + 1];
        let spare = *self.random.pick(&spares);
        self.put(letter, &cut, enough(&cut) + spare);
    }

    /// Adds a letter in rooms from none to more than enough.
    pub fn add_in_rooms(&mut self, letter: &[u8]) {
        let cut = answer(letter);
        let enough = enough(&cut);
        for words in [0, 1, TOKEN_WORDS - 1, TOKEN_WORDS, TOKEN_WORDS + 1] {
            self.put(letter, &cut, words);
        }
        for words in [enough, enough + 2 * TOKEN_WORDS - 1] {
            self.put(letter, &cut, words);
        }
        for less in [1, TOKEN_WORDS] {
            self.put(letter, &cut, enough.saturating_sub(less));
        }
    }

    /// Adds what a room must show, unless the list has it or the letter or file gets too long.
    pub fn put(&mut self, letter: &[u8], cut: &Cut, words: usize) {
        let words = words.min(LARGEST_ROOM);
        let (refusal, records) = match model::in_room(cut, words) {
            Ok(records) => (Refusal::default(), records),
            Err(refusal) => (refusal, [].as_slice()),
        };
        let bytes = HEAD * size_of::<u32>() + letter.len() + size_of_val(records);
        let call = Call { length: letter.len(), letter: letter.to_vec(), words };
        let fits = letter.len() <= LONGEST_LETTER && self.bytes + bytes <= LARGEST_FILE;
        if fits && !self.answers.contains_key(&call) {
            self.bytes += bytes;
            self.answers.insert(call, (refusal, records.to_vec()));
        }
    }

    pub fn file(&self) -> Vec<u8> {
        let mut file = Vec::with_capacity(self.bytes);
        for (call, (refusal, records)) in &self.answers {
            let (length, words) = (call.length as u32, call.words as u32);
            let Refusal { number, place } = *refusal;
            let head: [u32; HEAD] = [length, words, number, place, records.len() as u32];
            for number in head {
                file.extend_from_slice(&number.to_le_bytes());
            }
            file.extend_from_slice(&call.letter);
            for word in records.as_flattened() {
                file.extend_from_slice(&word.to_le_bytes());
            }
        }
        file
    }

    pub fn print_summary(&self) {
        let letters: BTreeSet<&[u8]> = self.answers.keys().map(|c| c.letter.as_slice()).collect();
        let longest = self.answers.keys().map(|c| c.length).max().unwrap_or(0);
        let largest = self.answers.keys().map(|c| c.words).max().unwrap_or(0);
        let mut refusals = [0; 8];
        for (refusal, _) in self.answers.values() {
            refusals[refusal.number as usize] += 1;
        }
        println!("by refusal number, 0 to 7: {refusals:?}");
        println!("longest letter {longest} bytes, largest room {largest} words");
        println!("{} letters, {} answers, {} bytes", letters.len(), self.len(), self.bytes);
    }
}

/// The words of a room that is just large enough.
fn enough(cut: &Cut) -> usize {
    cut.as_ref().map_or(0, |records| records.len() * TOKEN_WORDS)
}

/// What both builds of the crate say, with the model's slices and places.
pub fn answer(letter: &[u8]) -> Cut {
    let text = std::str::from_utf8(letter).expect("a letter for the crate is ASCII");
    let wrapping = oracle::wrapping_reading(text, false);
    assert_eq!(wrapping, oracle::checked_reading(text, false), "the two builds differ on {text:?}");
    let cut = model::cut(letter, Kind::Plain);
    match wrapping {
        Reading::Answered(told) => {
            let answer = cut.as_deref().map_err(|refusal| refusal.number);
            assert!(told.agrees(answer), "the model differs from the crate on {text:?}");
            cut
        }
        Reading::Panicked(message) => panic!("the crate panics on {text:?}: {message}"),
    }
}
