//! What is asked, what is lent for it, and what that must hold behind the call.

use crate::ours;
use common::bridge::WROTE_OUTSIDE;
use common::room::{Room, Source};

/// The refusal of a room that is smaller than the snippet.
pub const OUTPUT_ROOM: u32 = 25;

/// A function with what it is given: a text, with the most characters or without; a letter with
/// the number of its reading.
#[derive(Debug, Clone)]
pub enum Asked {
    Snip(Vec<u8>),
    SnipTo(Vec<u8>, usize),
    Snippet(Vec<u8>, u32),
}

/// A text, or a snippet; or refusal number and place.
pub type Told = Result<Vec<u8>, [u32; 2]>;

/// Refusal number, place, bytes of the snippet; a text's refusal has no place.
pub type Numbers = [u64; 3];

pub struct Call {
    /// Which text or letter of the run.
    pub number: u64,
    pub asked: Asked,
    /// Bytes of the room, and what they are.
    pub room: usize,
    pub junk: u8,
    pub expected: Told,
}

/// Our answer, where it is not the one expected.
pub struct Fault {
    pub numbers: Numbers,
    pub what: String,
}

impl Asked {
    pub fn given(&self) -> &[u8] {
        match self {
            Asked::Snip(given) | Asked::SnipTo(given, _) | Asked::Snippet(given, _) => given,
        }
    }
}

/// What a room of so many bytes shows of a snippet.
pub fn in_room(snippet: &Told, room: usize) -> Told {
    match snippet {
        Ok(snippet) if snippet.len() > room => Err([OUTPUT_ROOM, 0]),
        other => other.clone(),
    }
}

pub fn numbers(told: &Told) -> Numbers {
    match told {
        Ok(snippet) => [0, 0, snippet.len() as u64],
        Err([refusal, place]) => [u64::from(*refusal), u64::from(*place), 0],
    }
}

/// What is given between bytes that would be characters of the snippet if they were read, and a
/// room full of junk between guards.
#[derive(Default)]
pub struct Lent {
    source: Source,
    room: Room<u8>,
}

impl Lent {
    /// Makes a call that was sent ahead, and compares all that was answered and written.
    pub fn made(&mut self, call: &Call) -> Result<(), Fault> {
        let room = self.room.lend(call.room, call.junk);
        let given = self.source.lend(call.asked.given());
        let numbers = match &call.asked {
            Asked::Snip(_) => ours::snip(given, room),
            Asked::SnipTo(_, most) => ours::snip_to(given, *most, room),
            Asked::Snippet(_, reading) => ours::snippet(given, *reading, room),
        };
        match self.wrong(numbers, &call.expected) {
            None => Ok(()),
            Some(what) => Err(Fault { numbers, what }),
        }
    }

    fn wrong(&self, answer: Numbers, expected: &Told) -> Option<String> {
        if !self.room.guards_hold() || answer[0] == u64::from(WROTE_OUTSIDE[0]) {
            return Some("a byte outside the room was written".to_string());
        }
        if answer != numbers(expected) {
            return Some("another refusal, place or count".to_string());
        }
        let front = expected.as_deref().unwrap_or_default();
        let should = front.iter().chain(std::iter::repeat(&0));
        let place = self.room.lent().iter().zip(should).position(|(is, should)| is != should)?;
        let (is, should) = (self.room.lent()[place], front.get(place).unwrap_or(&0));
        Some(format!("byte {place} is {is} and should be {should}"))
    }
}
