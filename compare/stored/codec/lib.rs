//! The stored form of block lists, written from document 01 ("Stored form") and request A5 alone:
//! what a host might write for itself. It knows nothing of our library, judges its answers and its
//! speed.
//!
//!   number   seven-bit groups, signed words folded
//!   block    the rules of one block
//!   read     a list is checked, or read into rooms
//!   write    blocks and text become a list

mod block;
mod number;
mod read;
mod write;

pub use read::{check, read, Counts};
pub use write::write;

/// Words of a block's style that a list holds. The indents, which it does not hold, come behind
/// them: words of the whole style.
pub const STORED_WORDS: usize = 11;
pub const STYLE_WORDS: usize = 14;
/// Place and length of its text end a block's record.
pub const PLACE: usize = STYLE_WORDS;
pub const LENGTH: usize = STYLE_WORDS + 1;
pub const BLOCK_WORDS: usize = STYLE_WORDS + 2;
/// A text room counts for at most so many bytes.
pub const MOST_TEXT: usize = 2_147_483_647;

/// By the numbers of 01 and A5, with the names of docs/REFUSALS.md.
#[derive(Debug, Clone, Copy, PartialEq, Eq)]
pub enum Refusal {
    BlockRoom = 19,
    TextRoom = 20,
    StoredNumber = 21,
    StoredShort = 22,
    StoredLong = 23,
    StoredField = 24,
    OutputRoom = 25,
    IndentNotZero = 26,
}

impl Refusal {
    pub fn number(self) -> u32 {
        self as u32
    }
}
