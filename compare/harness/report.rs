//! Differences in a form that can be read and tried again.

use crate::judge::{in_room, Fault};
use common::cut;
use common::oracle::Reading;
use model::{Cut, Kind, Refusal, TOKEN_WORDS};
use std::fmt::Debug;

/// Bytes of a letter, and records of an answer, that are shown.
const SHOWN_BYTES: usize = 200;
const SHOWN_RECORDS: usize = 12;

/// The two builds of the crate and the model do not agree, or a build panicked.
pub fn builds(letter: &[u8], kind: Kind, cut: &Cut, wrapping: &Reading, checked: &Reading) {
    println!(
        "CRATE DIFFERS FROM ITSELF OR FROM THE MODEL, OR PANICS, {kind:?}: {}",
        escaped(letter)
    );
    println!("  overflow checks off: {}", reading(wrapping));
    println!("  overflow checks on:  {}", reading(checked));
    match cut {
        Err(Refusal { number, place }) => println!("  model: refusal {number} at {place}"),
        Ok(records) => println!("  model: {} tokens {}", records.len(), listed(records)),
    }
}

/// Our answer is not the one expected.
pub fn fault(letter: &[u8], cut: &Cut, fault: &Fault) {
    println!("DIFFERENCE, reading {}: {}", fault.reading, escaped(letter));
    println!("  room of {} words: {}", fault.words, fault.what);
    let (Refusal { number, place }, records) = in_room(cut, fault.words);
    let count = records.len();
    println!("  expected: refusal {number} at {place}, {count} tokens {}", listed(records));
    let [number, place, tokens] = fault.numbers;
    let (ours, _) = fault.room.as_chunks::<TOKEN_WORDS>();
    let shown = &ours[..ours.len().min(count.max(tokens as usize))];
    println!("  ours:     refusal {number} at {place}, {tokens} tokens {}", listed(shown));
}

fn reading(reading: &Reading) -> String {
    match reading {
        Reading::Panicked(message) => format!("panic: {message}"),
        Reading::Answered(cut::Cut::Refused(number)) => format!("refusal {number}"),
        Reading::Answered(cut::Cut::Tokens(records)) => {
            format!("{} tokens {}", records.len(), listed(records))
        }
    }
}

fn listed<T: Debug>(records: &[T]) -> String {
    let shown = records.iter().take(SHOWN_RECORDS + 1);
    let mut shown: Vec<String> = shown.map(|record| format!("{record:?}")).collect();
    if shown.len() > SHOWN_RECORDS {
        shown[SHOWN_RECORDS] = "..".to_string();
    }
    shown.join(" ")
}

fn escaped(letter: &[u8]) -> String {
    let shown = &letter[..letter.len().min(SHOWN_BYTES)];
    let more = if shown.len() < letter.len() { ".." } else { "" };
    format!("b\"{}\"{more} ({} bytes)", shown.escape_ascii(), letter.len())
}
