//! What a letter's text is, or its refusal: by our readings in the extractor's rooms, and plainly
//! by the crate. Letters on both sides of these rooms.

use crate::call::Told;
use crate::ours;
use common::cut::{SOURCE_LIMIT, TOO_LONG};
use common::letters::{repeated, Sink};
use common::oracle::{self, Reading};
use common::whole::Whole;
use model::{Kind, BLOCKS, COLOURS, EXTRACTOR, FONTS, TEXT, TOKENS};
use std::ops::RangeInclusive;

/// Bytes of the longest letter that is read.
pub const LONGEST: usize = 8_192;
pub const READINGS: [Kind; 3] = [Kind::Plain, Kind::Paragraphs, Kind::Standard];

/// The answer to a longer letter, in each reading.
pub fn too_long() -> [Told; 3] {
    [const { Err([TOO_LONG, 0]) }; 3]
}

/// What the crate makes of a letter, plainly; None where it is not to be asked, or its answer not
/// to be compared: outside 01's domain, and where our rooms are too small.
pub fn by_crate(letter: &[u8]) -> Option<Reading<Whole>> {
    let (answer, met) = model::read(letter, Kind::Plain, &ours::rooms());
    let limits = matches!(answer.refusal.number, 1 | 2 | 7 | 15..=20);
    if limits || met.negative_skip || met.large_skip || met.ill_formed {
        return None;
    }
    let text = std::str::from_utf8(letter).expect("a letter for the crate is ASCII");
    let [off, on] = oracle::whole_readings(text, false);
    if off != on {
        return Some(Reading::Panicked("the two builds differ".to_string()));
    }
    Some(on)
}

/// Our plain reading with the crate's text; None if they do not agree on success or refusal.
pub fn agreed(ours: &Told, says: Reading<Whole>) -> Option<Told> {
    match (ours, says) {
        (Ok(_), Reading::Answered(Whole::Read(document))) => Some(Ok(document.text)),
        (Err([number, place]), Reading::Answered(Whole::Refused(told))) if *number == told => {
            Some(Err([told, *place]))
        }
        _ => None,
    }
}

/// Both sides of the longest letter that is read, before trimming; 1 before 2.
pub fn lengths(sink: &mut Sink) {
    let around = [LONGEST - 1, LONGEST, LONGEST + 1, LONGEST + 2, 2 * LONGEST];
    for size in around.into_iter().chain(SOURCE_LIMIT - 1..=SOURCE_LIMIT + 1) {
        for unit in ["a", "ab ", "\\u8212 ", "\\_", "{\\b a}", "\\par ", "\n", "\u{e9}"] {
            sink(&repeated(unit.as_bytes(), size));
        }
        sink(&vec![b' '; size]);
        sink(&[b"{a}".as_slice(), &vec![b'\n'; size - 3]].concat());
    }
}

/// As many records as each room holds, a few less and more; text beyond its room in standard
/// reading alone, where a symbol is longer in the text than in the letter.
pub fn around_rooms(sink: &mut Sink) {
    const SYMBOLS: usize = 1_000;
    let mut put = |letter: String| sink(letter.as_bytes());
    for count in around(EXTRACTOR[TOKENS]) {
        put(format!("{{a {}}}", "\\b".repeat(count - 3)));
    }
    for count in around(EXTRACTOR[FONTS]) {
        put(format!("{{{{\\fonttbl{}}} a b}}", numbered(count, "\\f", usize::MAX)));
    }
    for count in around(EXTRACTOR[COLOURS]) {
        put(format!("{{{{\\colortbl{}}} a b}}", numbered(count, "\\blue", 256)));
    }
    for count in around(EXTRACTOR[BLOCKS]) {
        let blocks = (0..count).map(|i| if i % 2 == 0 { "\\b ab" } else { "\\b0  c" });
        put(format!("{{{}}}", blocks.collect::<String>()));
    }
    for bytes in around(EXTRACTOR[TEXT]) {
        let text = "ab".repeat(bytes).split_off(bytes + 3 * SYMBOLS);
        put(format!("{{{}{text}}}", "\\_".repeat(SYMBOLS)));
    }
}

fn around(count: usize) -> RangeInclusive<usize> {
    count - 2..=count + 2
}

/// So many words, numbered from 0 to below `end` and again.
fn numbered(count: usize, word: &str, end: usize) -> String {
    (0..count).map(|number| format!("{word}{}", number % end)).collect()
}
