//! What is asked, what is lent for it, and what that must hold behind the call.

use crate::ours;
use codec::BLOCK_WORDS;
use common::bridge::WROTE_OUTSIDE;
use common::room::{Room, Source};
use records::Records;
use rule::{Rule, Span, Told, FLAGS, MARKS, OUTPUT_ROOM};
use std::rc::Rc;

/// Refusal number, bytes of the fragment.
pub type Numbers = [u64; 2];

/// Who is judged: our library, or a rule with a fault.
pub enum Side {
    Ours,
    Fault(Rule),
}

pub struct Call {
    /// Which list of the run.
    pub number: u64,
    pub records: Rc<Records>,
    /// Bytes of the room, and what they are.
    pub room: usize,
    pub junk: u8,
    pub expected: Told,
}

/// The answer, where it is not the one expected.
pub struct Fault {
    pub numbers: Numbers,
    pub what: String,
}

/// What a room of so many bytes shows of a fragment.
pub fn in_room(fragment: &Told, room: usize) -> Told {
    match fragment {
        Ok(fragment) if fragment.len() > room => Err(OUTPUT_ROOM),
        other => other.clone(),
    }
}

pub fn numbers(told: &Told) -> Numbers {
    match told {
        Ok(fragment) => [0, fragment.len() as u64],
        Err(refusal) => [u64::from(*refusal), 0],
    }
}

/// What the fragment of good records must be read back as.
fn spans(records: &Records) -> Vec<Span> {
    let shown: u32 = MARKS.iter().map(|(flag, _)| flag).sum();
    let mut text = records.text.as_slice();
    let span = |record: &[u32]| {
        let (front, back) = text.split_at(record[BLOCK_WORDS - 1] as usize);
        text = back;
        Span { flags: record[FLAGS] & shown, text: front.to_vec() }
    };
    records.blocks.chunks_exact(BLOCK_WORDS).map(span).collect()
}

/// Blocks between guards, a text between bytes that would be characters of the fragment if they were
/// read, and a room full of junk between guards.
#[derive(Default)]
pub struct Lent {
    blocks: Room<u32>,
    source: Source,
    room: Room<u8>,
}

impl Lent {
    /// Makes a call that was sent ahead, compares all that was answered and written, and reads the
    /// fragment back.
    pub fn made(&mut self, side: &Side, call: &Call) -> Result<(), Fault> {
        let blocks = self.blocks.lend(call.records.blocks.len(), 0);
        blocks.copy_from_slice(&call.records.blocks);
        let text = self.source.lend(&call.records.text);
        let room = self.room.lend(call.room, call.junk);
        let numbers = match side {
            Side::Ours => ours::html(blocks, text, room),
            Side::Fault(rule) => rule.write(blocks, text, room),
        };
        match self.wrong(numbers, call) {
            None => Ok(()),
            Some(what) => Err(Fault { numbers, what }),
        }
    }

    fn wrong(&self, answer: Numbers, call: &Call) -> Option<String> {
        if !self.room.guards_hold() || answer[0] == u64::from(WROTE_OUTSIDE[0]) {
            return Some("a byte outside the room was written".to_string());
        }
        if answer != numbers(&call.expected) {
            return Some("another refusal or count".to_string());
        }
        let front = call.expected.as_deref().unwrap_or_default();
        let (written, rest) = self.room.lent().split_at(front.len());
        if let Some(place) = written.iter().zip(front).position(|(is, should)| is != should) {
            return Some(format!("byte {place} is another: {}", written.escape_ascii()));
        }
        if let Some(place) = rest.iter().position(|byte| *byte != 0) {
            return Some(format!("byte {} behind the fragment is not 0", front.len() + place));
        }
        let back = call.expected.is_err() || rule::spans(written) == Some(spans(&call.records));
        (!back).then(|| "the fragment is not read back".to_string())
    }
}
