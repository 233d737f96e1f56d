//! A whole reading as the crate can tell it: it keeps the names of fonts, not their places, and of
//! tokens and refusals what `cut` says.

use crate::cut::Told;

/// Four words of the painter, ten of the paragraph, then place and length of the text. Three of the
/// paragraph's are indents, which the crate has and never fills.
pub const BLOCK_WORDS: usize = 16;
pub type Block = [u32; BLOCK_WORDS];

#[derive(Debug, Clone, PartialEq, Eq)]
pub enum Whole {
    Read(Document),
    Refused(u32),
}

#[derive(Debug, Clone, Default, PartialEq, Eq)]
pub struct Document {
    pub tokens: Vec<Told>,
    /// Keys, ascending, with the bytes of the names.
    pub fonts: Vec<(u32, Vec<u8>)>,
    pub colours: Vec<u32>,
    pub blocks: Vec<Block>,
    pub text: Vec<u8>,
}

pub const NO_TOKENS: u32 = 8;
pub const FIRST_TOKEN: u32 = 9;
pub const TABLE_LINE_BREAK: u32 = 10;
pub const FONT_NUMBER: u32 = 11;
pub const NUMBER_FIELD: u32 = 12;
pub const IGNORABLE_IN_BODY: u32 = 13;
pub const NO_STATE: u32 = 14;
