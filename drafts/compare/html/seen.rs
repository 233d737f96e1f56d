//! What has been covered, so that a run that tested little shows.

use codec::BLOCK_WORDS;
use records::Records;
use rule::{Told, CONTROL_CHARACTER, FLAGS, OUTPUT_ROOM, STORED_FIELD};

const ANSWERS: [u32; 4] = [0, STORED_FIELD, CONTROL_CHARACTER, OUTPUT_ROOM];

#[derive(Default)]
pub struct Seen {
    /// Lists, those of letters, and calls, by answer.
    lists: [u64; 4],
    letters: [u64; 4],
    calls: [u64; 4],
    /// Readings that were refused.
    unread: u64,
    /// Lists with both a control character and a fault of 24.
    both: u64,
    /// Spans that were written, by their flags.
    flags: Vec<u64>,
    /// Characters that were escaped: & < > " and line feed.
    escaped: [u64; 5],
    longest: usize,
}

impl Seen {
    pub fn list(&mut self, records: &Records, told: &Told) {
        self.lists[row(told)] += 1;
        let control = |byte: &u8| *byte < 32 && *byte != b'\t' && *byte != b'\n';
        self.both += u64::from(*told == Err(STORED_FIELD) && records.text.iter().any(control));
        let Ok(fragment) = told else {
            return;
        };
        self.flags.resize(128, 0);
        for record in records.blocks.chunks_exact(BLOCK_WORDS) {
            self.flags[record[FLAGS] as usize] += 1;
        }
        for byte in &records.text {
            if let Some(place) = b"&<>\"\n".iter().position(|escaped| escaped == byte) {
                self.escaped[place] += 1;
            }
        }
        self.longest = self.longest.max(fragment.len());
    }

    /// The list of a letter, or none.
    pub fn letter(&mut self, told: Option<&Told>) {
        match told {
            Some(told) => self.letters[row(told)] += 1,
            None => self.unread += 1,
        }
    }

    pub fn call(&mut self, expected: &Told) {
        self.calls[row(expected)] += 1;
    }

    pub fn successes(&self) -> u64 {
        self.calls[0]
    }

    pub fn print(&self) {
        println!("\nBy refusal number: lists in ample rooms, those of letters, and all calls.");
        println!(" no.        lists      letters        calls");
        for (place, answer) in ANSWERS.iter().enumerate() {
            let counts = [self.lists, self.letters, self.calls].map(|counts| counts[place]);
            println!("{answer:4}{}", counts.map(|count| format!("{count:>13}")).concat());
        }
        let flags = self.flags.iter().filter(|count| **count > 0).count();
        let [and, less, greater, quote, feed] = self.escaped;
        println!(
            "readings refused: {}; with 24 and a control character: {}",
            self.unread, self.both
        );
        println!(
            "flags met in fragments: {flags} of 128; escaped: {and} &, {less} <, {greater} >, {quote} \
             \", {feed} line feeds; longest fragment: {} bytes",
            self.longest
        );
    }
}

fn row(told: &Told) -> usize {
    let answer = told.as_ref().err().copied().unwrap_or(0);
    ANSWERS.iter().position(|number| *number == answer).expect("an answer of A8")
}
