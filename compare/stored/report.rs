//! Calls, answers and differences in a form that can be read and tried again.

use crate::call::{Answer, Asked, Call, Fault, Records};
use crate::ours;
use codec::BLOCK_WORDS;

/// Bytes, and records, that are shown.
const SHOWN_BYTES: usize = 200;
const SHOWN_RECORDS: usize = 8;

/// Our answer is not the codec's.
pub fn fault(call: &Call, fault: &Fault) -> String {
    let Fault { numbers, what } = fault;
    format!(
        "DIFFERENCE, {} against codec, {}: {what}\n  expected: {:?}\n  ours:     {numbers:?}",
        ours::NAME,
        asked(&call.asked),
        call.expected.numbers
    )
}

/// The same for the check of a list too large to be shown.
pub fn huge(bytes: usize, expected: u32, ours: u32) -> String {
    let name = ours::NAME;
    format!("DIFFERENCE, {name} against codec, check of {bytes} bytes: {ours}, not {expected}")
}

/// The same for a text to be written, whose answer 01 gives.
pub fn huge_text(bytes: usize, known: u64, codec: u64, ours: u64) -> String {
    let name = ours::NAME;
    format!("DIFFERENCE, writing of {bytes} bytes: {name} {ours}, codec {codec}, should be {known}")
}

/// The codec's answer is not the one that 01 or A5 gives.
pub fn not_known(call: &Asked, known: u32, told: u64) -> String {
    format!("DIFFERENCE, codec against 01 or A5, {}: {told}, should be {known}", asked(call))
}

/// The codec does not write good records as the list that was put together from them.
pub fn not_written(records: &Records, list: &[u8]) -> String {
    let given = told(records);
    format!("DIFFERENCE, codec against 01, write of {given}: should be {}", escaped(list))
}

pub fn check_is_not_read(list: &[u8], check: &Answer, read: &Answer) -> String {
    format!(
        "DIFFERENCE, codec against itself, {}: checked {}, read {}",
        escaped(list),
        check.numbers[0],
        read.numbers[0]
    )
}

pub fn list_not_back(list: &[u8], read: &Answer, written: &Answer) -> String {
    format!(
        "DIFFERENCE, codec against itself, not written back: {}\n  read: {:?}\n  written: {:?} {}",
        escaped(list),
        read.numbers,
        written.numbers,
        escaped(&written.bytes)
    )
}

pub fn records_not_back(records: &Records, list: &[u8], read: &Answer) -> String {
    format!(
        "DIFFERENCE, codec against itself, not read back: {}\n  list: {}\n  read: {:?}",
        told(records),
        escaped(list),
        read.numbers
    )
}

fn asked(asked: &Asked) -> String {
    match asked {
        Asked::Check(list) => format!("check of {}", escaped(list)),
        Asked::Read(list, [blocks, text]) => {
            format!("read of {} in rooms of {blocks} words and {text} bytes", escaped(list))
        }
        Asked::Write(records, list) => {
            format!("write of {} in a room of {list} bytes", told(records))
        }
    }
}

fn told(records: &Records) -> String {
    let blocks = records.blocks.chunks(BLOCK_WORDS).map(|record| {
        record.iter().map(|word| (*word as i32).to_string()).collect::<Vec<_>>().join(" ")
    });
    let count = blocks.len();
    let shown = blocks.take(SHOWN_RECORDS).collect::<Vec<_>>().join(", ");
    let more = if count > SHOWN_RECORDS { format!(" .. {count} in all") } else { String::new() };
    format!("[{shown}{more}] and {}", escaped(&records.text))
}

fn escaped(bytes: &[u8]) -> String {
    let shown = &bytes[..bytes.len().min(SHOWN_BYTES)];
    let more = if shown.len() < bytes.len() { ".." } else { "" };
    format!("b\"{}\"{more} ({} bytes)", shown.escape_ascii(), bytes.len())
}
