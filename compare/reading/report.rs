//! Answers and differences in a form that can be read and tried again.

use crate::lent::{Call, Fault, Lent};
use crate::ours;
use common::oracle::Reading;
use common::whole::Whole;
use model::{Answer, Kind, Refusal, KINDS};

/// Bytes of a letter or a text, and records, that are shown.
const SHOWN_BYTES: usize = 200;
const SHOWN_RECORDS: usize = 8;

/// The model and the crate do not agree, or one build of the crate does not.
pub fn model_against_crate(
    letter: &[u8],
    kind: Kind,
    model: &Answer,
    crate_says: &[Reading<Whole>; 2],
) -> String {
    format!(
        "DIFFERENCE, model against crate, {kind:?}: {}\n  model: {}\n{}",
        escaped(letter),
        answer(letter, model),
        builds(crate_says)
    )
}

pub fn builds([off, on]: &[Reading<Whole>; 2]) -> String {
    if off == on {
        return format!("  crate, both builds:         {}", reading(off));
    }
    let (off, on) = (reading(off), reading(on));
    format!("  crate, overflow checks off: {off}\n  crate, overflow checks on:  {on}")
}

/// Our answer is not the model's.
pub fn fault(call: &Call, expected: &Answer, fault: &Fault) -> String {
    let Call { letter, kind, rooms, .. } = call;
    let Fault { numbers, what } = fault;
    format!(
        "DIFFERENCE, {} against model, {kind:?}: {}\n  rooms of {rooms:?} elements: {what}\n  \
         expected: {:?}\n  ours:     {numbers:?}\n  expected in full: {}",
        ours::NAME,
        escaped(letter),
        expected.numbers(),
        answer(letter, expected)
    )
}

pub fn reading(reading: &Reading<Whole>) -> String {
    match reading {
        Reading::Panicked(message) => format!("panic: {}", message.replace('\n', " ")),
        Reading::Answered(Whole::Refused(number)) => format!("refusal {number}"),
        Reading::Answered(Whole::Read(document)) => format!(
            "{} tokens {}, fonts {}, colours {}, blocks {}, text {}",
            document.tokens.len(),
            listed(&document.tokens),
            fonts(document.fonts.iter().map(|(key, name)| (*key, name.as_slice()))),
            listed(&document.colours),
            listed(&document.blocks),
            escaped(&document.text)
        ),
    }
}

pub fn answer(letter: &[u8], answer: &Answer) -> String {
    if let Refusal { number: number @ 1.., place } = answer.refusal {
        return format!("refusal {number} at {place}");
    }
    format!(
        "{} tokens {}, fonts {}, colours {}, blocks {}, text {}",
        answer.tokens.len(),
        listed(&answer.tokens),
        fonts(answer.fonts.iter().map(|font| (font[0], name(letter, font)))),
        listed(&answer.colours),
        listed(&answer.blocks),
        escaped(&answer.text)
    )
}

/// The bytes of a font's name.
pub fn name<'a>(letter: &'a [u8], font: &model::Font) -> &'a [u8] {
    &letter[font[1] as usize..(font[1] + font[2]) as usize]
}

/// Keys and names; their number where not all are shown.
fn fonts<'a>(all: impl ExactSizeIterator<Item = (u32, &'a [u8])>) -> String {
    let count = all.len();
    let shown = all.take(SHOWN_RECORDS).map(|(key, name)| format!("{key} {}", name.escape_ascii()));
    let shown = shown.collect::<Vec<_>>().join(", ");
    if count > SHOWN_RECORDS {
        return format!("[{shown} .. {count} in all]");
    }
    format!("[{shown}]")
}

fn listed<T: std::fmt::Debug>(records: &[T]) -> String {
    let shown = &records[..records.len().min(SHOWN_RECORDS)];
    if shown.len() < records.len() {
        return format!("{shown:?} .. {} in all", records.len());
    }
    format!("{shown:?}")
}

pub fn escaped(letter: &[u8]) -> String {
    let shown = &letter[..letter.len().min(SHOWN_BYTES)];
    let more = if shown.len() < letter.len() { ".." } else { "" };
    format!("b\"{}\"{more} ({} bytes)", shown.escape_ascii(), letter.len())
}

/// Our own answer in rooms that hold everything, told by the model where both agree.
pub fn ours(letter: &[u8]) -> String {
    let rooms = crate::small::ample(letter.len());
    let told = KINDS.map(|kind| {
        let (expected, _) = model::read(letter, kind, &rooms);
        let (letter, junk) = (letter.to_vec(), 0xABAB_ABAB);
        let call = Call { number: 0, letter, kind, rooms, junk };
        ours::send(std::slice::from_ref(&call));
        match Lent::default().made(&call, &expected) {
            Ok(()) => answer(&call.letter, &expected),
            Err(fault) => format!("{:?}, not the model's answer: {}", fault.numbers, fault.what),
        }
    });
    let [plain, paragraphs] = &told;
    if plain == paragraphs {
        return plain.clone();
    }
    format!("{plain}; by paragraphs {paragraphs}")
}
