//! Records: blocks of 16 words and their text, good or bad, for the comparisons that write them. What
//! 01 and A5 say of them, the codec of compare/stored judges.
//!
//!   listed   records that are listed rather than drawn
//!   drawn    good records at random; damage, the same with damage

pub mod damage;
pub mod drawn;
pub mod listed;

use codec::{BLOCK_WORDS, STORED_WORDS, STYLE_WORDS};

/// The words of a style, as they are read.
pub type SignedStyle = [i32; STYLE_WORDS];

/// Blocks of `BLOCK_WORDS` and their text, good or bad.
#[derive(Debug, Clone, Default, PartialEq, Eq)]
pub struct Records {
    pub blocks: Vec<u32>,
    pub text: Vec<u8>,
}

impl Records {
    pub fn of(blocks: &[(SignedStyle, &str)]) -> Self {
        let mut records = Records::default();
        for (style, text) in blocks {
            records.push(&style.map(|word| word as u32), text.as_bytes());
        }
        records
    }

    pub fn push(&mut self, style: &[u32; STYLE_WORDS], text: &[u8]) {
        self.blocks.extend_from_slice(style);
        self.blocks.extend([self.text.len() as u32, text.len() as u32]);
        self.text.extend_from_slice(text);
    }

    pub fn has_indent(&self) -> bool {
        let mut records = self.blocks.chunks_exact(BLOCK_WORDS);
        records.any(|record| record[STORED_WORDS..STYLE_WORDS].iter().any(|word| *word != 0))
    }
}
