//! What is asked, what is lent for it, and what that must hold behind the call.

use crate::ours;
use codec::Counts;
use common::bridge::WROTE_OUTSIDE;
use common::room::{Room, Source};
use std::fmt::Display;

/// Blocks of `BLOCK_WORDS` and their text, good or bad.
#[derive(Debug, Clone, Default, PartialEq, Eq)]
pub struct Records {
    pub blocks: Vec<u32>,
    pub text: Vec<u8>,
}

/// A function with what it is given, and the sizes of its rooms: words of blocks and bytes of text
/// for a reading, bytes of the list for a writing.
#[derive(Debug, Clone, PartialEq, Eq)]
pub enum Asked {
    Check(Vec<u8>),
    Read(Vec<u8>, [usize; 2]),
    Write(Records, usize),
}

/// Refusal number and counts, and all elements of the rooms: words, bytes.
#[derive(Debug, Clone, Default, PartialEq, Eq)]
pub struct Answer {
    pub numbers: [u64; 3],
    pub words: Vec<u32>,
    pub bytes: Vec<u8>,
}

pub struct Call {
    /// Which list or records of the run.
    pub number: u64,
    pub asked: Asked,
    pub expected: Answer,
    pub junk: u32,
}

/// Our answer, where it is not the one expected.
pub struct Fault {
    pub numbers: [u64; 3],
    pub what: String,
}

impl Asked {
    /// Elements of the rooms: words, bytes.
    pub fn rooms(&self) -> [usize; 2] {
        match self {
            Asked::Check(_) => [0, 0],
            Asked::Read(_, rooms) => *rooms,
            Asked::Write(_, bytes) => [0, *bytes],
        }
    }

    /// Bytes that are given.
    pub fn size(&self) -> usize {
        match self {
            Asked::Check(list) | Asked::Read(list, _) => list.len(),
            Asked::Write(records, _) => 4 * records.blocks.len() + records.text.len(),
        }
    }

    /// The codec's answer, in rooms full of junk.
    pub fn expected(&self, junk: u32) -> Answer {
        let [words, bytes] = self.rooms();
        let (mut words, mut bytes) = (vec![junk; words], vec![junk as u8; bytes]);
        let numbers = match self {
            Asked::Check(list) => [u64::from(by_codec::check(list)), 0, 0],
            Asked::Read(list, _) => by_codec::read(list, &mut words, &mut bytes),
            Asked::Write(records, _) => by_codec::write(&records.blocks, &records.text, &mut bytes),
        };
        Answer { numbers, words, bytes }
    }
}

/// The codec's answers in the form of our library's.
pub mod by_codec {
    use super::Counts;

    pub fn check(list: &[u8]) -> u32 {
        codec::check(list).map_or_else(codec::Refusal::number, |()| 0)
    }

    pub fn read(list: &[u8], blocks: &mut [u32], text: &mut [u8]) -> [u64; 3] {
        match codec::read(list, blocks, text) {
            Ok(Counts { blocks, text }) => [0, blocks as u64, text as u64],
            Err(refusal) => [u64::from(refusal.number()), 0, 0],
        }
    }

    pub fn write(blocks: &[u32], text: &[u8], list: &mut [u8]) -> [u64; 3] {
        match codec::write(blocks, text, list) {
            Ok(bytes) => [0, bytes as u64, 0],
            Err(refusal) => [u64::from(refusal.number()), 0, 0],
        }
    }
}

/// What is given and the rooms, which are full of junk, between guards. A byte read in front of a
/// list or behind it would be a group of a number, or text.
#[derive(Default)]
pub struct Lent {
    source: Source,
    blocks: Room<u32>,
    words: Room<u32>,
    bytes: Room<u8>,
}

impl Lent {
    /// Makes a call that was sent ahead, and compares all that was answered and written.
    pub fn made(&mut self, call: &Call) -> Result<(), Fault> {
        let [words, bytes] = call.asked.rooms();
        let words = self.words.lend(words, call.junk);
        let bytes = self.bytes.lend(bytes, call.junk as u8);
        let numbers = match &call.asked {
            Asked::Check(list) => [u64::from(ours::check(self.source.lend(list))), 0, 0],
            Asked::Read(list, _) => ours::read(self.source.lend(list), words, bytes),
            Asked::Write(records, _) => {
                let blocks = self.blocks.lend(records.blocks.len(), 0);
                blocks.copy_from_slice(&records.blocks);
                ours::write(blocks, self.source.lend(&records.text), bytes)
            }
        };
        match self.wrong(numbers, &call.expected) {
            None => Ok(()),
            Some(what) => Err(Fault { numbers, what }),
        }
    }

    fn wrong(&self, numbers: [u64; 3], expected: &Answer) -> Option<String> {
        let guards_hold = self.words.guards_hold() && self.bytes.guards_hold();
        if !guards_hold || numbers[0] == u64::from(WROTE_OUTSIDE[0]) {
            return Some("an element outside a room was written".to_string());
        }
        if numbers != expected.numbers {
            return Some("another refusal or count".to_string());
        }
        let word = wrong_element("word", self.words.lent(), &expected.words);
        word.or_else(|| wrong_element("byte", self.bytes.lent(), &expected.bytes))
    }
}

fn wrong_element<T>(name: &str, room: &[T], expected: &[T]) -> Option<String>
where
    T: Copy + PartialEq + Display,
{
    let place = room.iter().zip(expected).position(|(is, should)| is != should)?;
    Some(format!("{name} {place} is {} and should be {}", room[place], expected[place]))
}
