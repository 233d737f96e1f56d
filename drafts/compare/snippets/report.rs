//! Calls, answers and differences in a form that can be read and tried again.

use crate::call::{numbers, Asked, Call, Fault, Told};
use crate::ours;

/// Bytes that are shown.
const SHOWN: usize = 700;

/// Our answer is not the model's.
pub fn fault(call: &Call, fault: &Fault) -> String {
    let Fault { numbers: answer, what } = fault;
    format!(
        "DIFFERENCE, {} against model, {} in a room of {} bytes: {what}\n  expected: {:?}, {}\n  \
         ours:     {answer:?}",
        ours::NAME,
        asked(&call.asked),
        call.room,
        numbers(&call.expected),
        told(&call.expected)
    )
}

/// The model's answer is not the one that A12 gives.
pub fn not_known(text: &[u8], most: usize, known: &[u8], told: &[u8]) -> String {
    format!(
        "DIFFERENCE, model against A12, at most {most} characters of {}: {}, should be {}",
        escaped(text),
        escaped(told),
        escaped(known)
    )
}

pub fn models_differ(text: &[u8], most: usize, characters: &[u8], bytes: &[u8]) -> String {
    format!(
        "DIFFERENCE, model against model, at most {most} characters of {}: by characters {}, by \
         bytes {}",
        escaped(text),
        escaped(characters),
        escaped(bytes)
    )
}

/// Our plain reading and the crate's do not agree on success or refusal.
pub fn crate_differs(letter: &[u8], ours: &Told, says: &str) -> String {
    let letter = escaped(letter);
    format!("DIFFERENCE, our reading against crate, {letter}: {}, crate {says}", told(ours))
}

fn asked(asked: &Asked) -> String {
    match asked {
        Asked::Snip(text) => format!("snip of {}", escaped(text)),
        Asked::SnipTo(text, most) => format!("snip to {most} of {}", escaped(text)),
        Asked::Snippet(letter, reading) => {
            format!("snippet of letter {}, reading {reading}", escaped(letter))
        }
    }
}

fn told(told: &Told) -> String {
    match told {
        Ok(text) => escaped(text),
        Err([refusal, place]) => format!("refusal {refusal} at {place}"),
    }
}

fn escaped(bytes: &[u8]) -> String {
    let shown = &bytes[..bytes.len().min(SHOWN)];
    let more = if shown.len() < bytes.len() { ".." } else { "" };
    format!("b\"{}\"{more} ({} bytes)", shown.escape_ascii(), bytes.len())
}
