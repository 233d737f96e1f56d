//! Calls, answers and differences in a form that can be read and tried again.

use crate::call::{numbers, Call, Fault};
use crate::ours;
use codec::BLOCK_WORDS;
use model::Kind;
use records::Records;
use rule::Told;

/// Bytes, and records, that are shown.
const SHOWN_BYTES: usize = 300;
const SHOWN_RECORDS: usize = 8;

/// Our answer is not the model's.
pub fn fault(call: &Call, fault: &Fault) -> String {
    format!(
        "DIFFERENCE, {} against model, {} in a room of {} bytes: {}\n  expected: {:?}, {}\n  ours:     \
         {:?}",
        ours::NAME,
        list(&call.records),
        call.room,
        fault.what,
        numbers(&call.expected),
        told(&call.expected),
        fault.numbers
    )
}

/// The model's answer is not the one that A8 gives.
pub fn not_known(records: &Records, known: &Told, is: &Told) -> String {
    let [is, known] = [is, known].map(told);
    format!("DIFFERENCE, model against A8, {}: {is}, should be {known}", list(records))
}

pub fn letter_breaks(letter: &[u8], kind: Kind) -> String {
    format!("DIFFERENCE, {kind:?} reading against A8, letter {}: 24", escaped(letter))
}

/// A text too large to be shown.
pub fn huge(bytes: usize, known: u64, model: u64, ours: u64) -> String {
    let name = ours::NAME;
    format!("DIFFERENCE, {bytes} bytes of zeros: {name} {ours}, model {model}, should be {known}")
}

fn told(told: &Told) -> String {
    match told {
        Ok(fragment) => escaped(fragment),
        Err(refusal) => format!("refusal {refusal}"),
    }
}

fn list(records: &Records) -> String {
    let blocks = records.blocks.chunks(BLOCK_WORDS).map(|record| {
        record.iter().map(|word| (*word as i32).to_string()).collect::<Vec<_>>().join(" ")
    });
    let count = blocks.len();
    let shown = blocks.take(SHOWN_RECORDS).collect::<Vec<_>>().join(", ");
    let more = if count > SHOWN_RECORDS { format!(" .. {count} in all") } else { String::new() };
    format!("[{shown}{more}] and {}", escaped(&records.text))
}

fn escaped(bytes: &[u8]) -> String {
    let shown = &bytes[..bytes.len().min(SHOWN_BYTES)];
    let more = if shown.len() < bytes.len() { ".." } else { "" };
    format!("b\"{}\"{more} ({} bytes)", shown.escape_ascii(), bytes.len())
}
