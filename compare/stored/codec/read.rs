//! A list is checked, or read into rooms.

use crate::block::{Block, Style};
use crate::{number, Refusal, BLOCK_WORDS, MOST_TEXT};

#[derive(Debug, Clone, Copy, Default, PartialEq, Eq)]
pub struct Counts {
    pub blocks: usize,
    /// Bytes.
    pub text: usize,
}

/// The refusal of a list, in rooms that hold whatever it has.
pub fn check(list: &[u8]) -> Result<(), Refusal> {
    let mut blocks = Blocks::of(list)?;
    let mut text = 0;
    for block in &mut blocks {
        text += block?.text.len();
        if text > MOST_TEXT {
            return Err(Refusal::TextRoom);
        }
    }
    blocks.end()
}

/// Reads a list into rooms, of words and of bytes. What is left of them is zero: all of it, if the
/// list is refused.
pub fn read(list: &[u8], blocks: &mut [u32], text: &mut [u8]) -> Result<Counts, Refusal> {
    let answer = read_into(list, blocks, text);
    let counts = answer.unwrap_or_default();
    blocks[counts.blocks * BLOCK_WORDS..].fill(0);
    text[counts.text..].fill(0);
    answer
}

fn read_into(list: &[u8], blocks: &mut [u32], text: &mut [u8]) -> Result<Counts, Refusal> {
    let mut list = Blocks::of(list)?;
    let mut records = blocks.chunks_exact_mut(BLOCK_WORDS);
    let text_room = text.len().min(MOST_TEXT);
    let mut text = &mut text[..text_room];
    let mut counts = Counts::default();
    for block in &mut list {
        let block = block?;
        let record = records.next().ok_or(Refusal::BlockRoom)?;
        let rooms = std::mem::take(&mut text).split_at_mut_checked(block.text.len());
        let (room, behind) = rooms.ok_or(Refusal::TextRoom)?;
        room.copy_from_slice(block.text);
        text = behind;
        block.lay(record, counts.text);
        counts.blocks += 1;
        counts.text += block.text.len();
    }
    list.end()?;
    Ok(counts)
}

/// The blocks of a list in their order; none follows a refusal.
struct Blocks<'a> {
    rest: &'a [u8],
    left: u32,
    before: Option<Style>,
}

impl<'a> Blocks<'a> {
    fn of(list: &'a [u8]) -> Result<Self, Refusal> {
        let (left, rest) = number::take(list)?;
        Ok(Blocks { rest, left, before: None })
    }

    /// The refusal of what stands behind the last block.
    fn end(&self) -> Result<(), Refusal> {
        if self.rest.is_empty() {
            Ok(())
        } else {
            Err(Refusal::StoredLong)
        }
    }
}

impl<'a> Iterator for Blocks<'a> {
    type Item = Result<Block<'a>, Refusal>;

    #[inline]
    fn next(&mut self) -> Option<Self::Item> {
        self.left = self.left.checked_sub(1)?;
        let taken = Block::take(self.rest, self.before.as_ref());
        Some(taken.map(|(block, rest)| {
            self.rest = rest;
            self.before = Some(block.style);
            block
        }))
    }
}
