//! A cutting as the crate can tell it: a refusal number, or the first words of each token's record
//! (kind, word number, 1 if a number is present, that number, source place, length). It keeps
//! neither the slices that tokens were cut from nor the places of refusals: these are the model's.

/// What the crate tells of a token.
pub type Told = [u32; 6];

/// The numbers of readings for our cutter; any other is plain.
pub const PLAIN: u32 = 0;
pub const PARAGRAPHS: u32 = 1;
pub const STANDARD: u32 = 2;

pub const SOURCE_LIMIT: usize = 65_536;

pub const TOO_LONG: u32 = 1;
pub const NOT_ASCII: u32 = 2;
pub const HEX_SHORT: u32 = 3;
pub const HEX_BAD: u32 = 4;
pub const NUMBER_BAD: u32 = 5;
pub const LAST_SLICE: u32 = 6;
pub const ROOM_SMALL: u32 = 7;

pub const TEXT: u32 = 0;
pub const OPEN: u32 = 1;
pub const CLOSE: u32 = 2;
pub const LINE_BREAK: u32 = 3;
pub const IGNORABLE: u32 = 4;
pub const WORD: u32 = 5;

#[rustfmt::skip]
pub const NAMES: [&str; 49] = [
    "rtf", "ansi", "u", "uc", "fonttbl", "colortbl", "filetbl", "stylesheet", "fcharset", "f",
    "fs", "cf", "i", "b", "ul", "ulnone", "super", "sub", "scaps", "strike",
    "par", "pard", "sectd", "plain", "s", "pardeftab", "ql", "qr", "qj", "qc",
    "fi", "ri", "li", "sb", "sa", "sl", "slmul", "red", "green", "blue",
    "emdash", "endash", "bullet", "lquote", "rquote", "ldblquote", "rdblquote", "tab", "line",
];
pub const UNKNOWN: u32 = NAMES.len() as u32;

/// The answer to a letter in a room that holds everything.
#[derive(Debug, Clone, PartialEq, Eq)]
pub enum Cut {
    Tokens(Vec<Told>),
    Refused(u32),
}

impl Cut {
    /// Whether these are the same records, or the same refusal number, as far as the crate tells.
    pub fn agrees<const WORDS: usize>(&self, answer: Result<&[[u32; WORDS]], u32>) -> bool {
        match (self, answer) {
            (Cut::Tokens(told), Ok(records)) => are_told(told, records),
            (Cut::Refused(number), Err(refusal)) => *number == refusal,
            _ => false,
        }
    }
}

/// Whether these are the same records, as far as the crate tells.
pub fn are_told<const WORDS: usize>(told: &[Told], records: &[[u32; WORDS]]) -> bool {
    told.len() == records.len() && told.iter().zip(records).all(|(t, record)| record.starts_with(t))
}
