//! A block list as a fragment of HTML once more, from request A8's text alone; and a fragment read
//! back. It knows nothing of our library, and judges its answers.
//!
//!   back     a fragment's spans again: their marks and their text
//!   faults   rules with a fault each, to show that a comparison sees it

mod back;
mod faults;

pub use back::{spans, Span};
pub use faults::{all as faults, Fault};

use codec::{Refusal, BLOCK_WORDS, LENGTH, PLACE};
use std::cell::LazyCell;

pub const STORED_FIELD: u32 = 24;
pub const OUTPUT_ROOM: u32 = 25;
pub const INDENT_NOT_ZERO: u32 = 26;
pub const CONTROL_CHARACTER: u32 = 27;

/// The word of a record that has its flags.
pub const FLAGS: usize = 3;
/// "`b`, `i`, `u`, `sup`, `sub`, `s` for the marks set": 1 bold, 2 italic, 4 underline, 8 super, 16
/// sub, 64 strike. 32, small capitals, has no tag.
pub const MARKS: [(u32, &str); 6] =
    [(1, "b"), (2, "i"), (4, "u"), (8, "sup"), (16, "sub"), (64, "s")];
/// Each is replaced in the whole text before the next.
pub const ESCAPES: [(&str, &str); 5] =
    [("&", "&amp;"), ("<", "&lt;"), (">", "&gt;"), ("\"", "&quot;"), ("\n", "<br>")];

/// A fragment, or a refusal's number.
pub type Told = Result<Vec<u8>, u32>;

/// The rule, with what a fault may change of it.
#[derive(Clone)]
pub struct Rule {
    /// In front of a block's marks, and behind them.
    span: [&'static str; 2],
    marks: Vec<(u32, &'static str)>,
    closes_in_opening_order: bool,
    escapes: Vec<(&'static str, &'static str)>,
    is_control: fn(u8) -> bool,
    /// What is asked, in this order.
    refusals: Vec<Asked>,
    /// What stands for a list without blocks.
    empty: &'static str,
    /// Bytes of the room that a fragment needs behind it.
    spare: usize,
    /// Whether what is left of the room is set to zero.
    clears: bool,
}

/// A reason for refusing a list, whatever its room.
#[derive(Debug, Clone, Copy)]
enum Asked {
    StoredField,
    Indent,
    Control,
    Room,
}

impl Rule {
    /// A8's.
    pub fn right() -> Self {
        Rule {
            span: ["<span>", "</span>"],
            marks: MARKS.to_vec(),
            closes_in_opening_order: false,
            escapes: ESCAPES.to_vec(),
            is_control: |byte| byte < 32 && byte != b'\t' && byte != b'\n',
            refusals: vec![Asked::StoredField, Asked::Control, Asked::Room],
            empty: "",
            spare: 0,
            clears: true,
        }
    }

    /// The fragment of a list, in a room of so many bytes.
    pub fn told(&self, blocks: &[u32], text: &[u8], room: usize) -> Told {
        let written = codec::write(blocks, text, &mut []);
        // Made only if it is asked for. A list that breaks the stored form's rules has none.
        let fragment = LazyCell::new(|| match written {
            Err(Refusal::StoredField) => Vec::new(),
            _ => self.fragment(blocks, text),
        });
        for asked in &self.refusals {
            let refusal = match asked {
                Asked::StoredField => (written == Err(Refusal::StoredField), STORED_FIELD),
                Asked::Indent => (written == Err(Refusal::IndentNotZero), INDENT_NOT_ZERO),
                Asked::Control => {
                    (text.iter().any(|byte| (self.is_control)(*byte)), CONTROL_CHARACTER)
                }
                Asked::Room => (fragment.len() + self.spare > room, OUTPUT_ROOM),
            };
            if let (true, number) = refusal {
                return Err(number);
            }
        }
        Ok(fragment.clone())
    }

    /// Writes it, in the form of our library: refusal number and count of bytes.
    pub fn write(&self, blocks: &[u32], text: &[u8], room: &mut [u8]) -> [u64; 2] {
        let told = self.told(blocks, text, room.len());
        if self.clears {
            room.fill(0);
        }
        match told {
            Ok(fragment) => {
                room[..fragment.len()].copy_from_slice(&fragment);
                [0, fragment.len() as u64]
            }
            Err(refusal) => [u64::from(refusal), 0],
        }
    }

    fn fragment(&self, blocks: &[u32], text: &[u8]) -> Vec<u8> {
        if blocks.is_empty() {
            return self.empty.into();
        }
        let spans = blocks.chunks_exact(BLOCK_WORDS).map(|record| {
            let [place, length] = [PLACE, LENGTH].map(|word| record[word] as usize);
            let text = std::str::from_utf8(&text[place..][..length]).expect("a good list");
            self.span(record[FLAGS], text)
        });
        spans.collect::<String>().into_bytes()
    }

    fn span(&self, flags: u32, text: &str) -> String {
        let escaped = self
            .escapes
            .iter()
            .fold(text.to_string(), |text, (character, escape)| text.replace(character, escape));
        let set: Vec<&str> = self
            .marks
            .iter()
            .filter(|(flag, _)| flags & flag != 0)
            .map(|(_, name)| *name)
            .collect();
        let opened: String = set.iter().map(|name| format!("<{name}>")).collect();
        let mut closed: Vec<String> = set.iter().map(|name| format!("</{name}>")).collect();
        if !self.closes_in_opening_order {
            closed.reverse();
        }
        let [front, back] = self.span;
        format!("{front}{opened}{escaped}{}{back}", closed.concat())
    }
}
