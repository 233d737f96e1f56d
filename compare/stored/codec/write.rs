//! Blocks and text become a list.

use crate::block::Block;
use crate::{number, Refusal, BLOCK_WORDS, STORED_WORDS, STYLE_WORDS};

/// Writes the list of records and their text into a room: the count of its bytes. What is left of
/// the room is zero: all of it, on a refusal.
pub fn write(blocks: &[u32], text: &[u8], list: &mut [u8]) -> Result<usize, Refusal> {
    let answer = write_into(blocks, text, list);
    list[answer.unwrap_or(0)..].fill(0);
    answer
}

fn write_into(blocks: &[u32], text: &[u8], list: &mut [u8]) -> Result<usize, Refusal> {
    let records = blocks.chunks_exact(BLOCK_WORDS);
    let count = u32::try_from(records.len()).ok().filter(|_| records.remainder().is_empty());
    let count = count.ok_or(Refusal::StoredField)?;
    let size = number::size(count) + size_of_blocks(blocks, text).ok_or(Refusal::StoredField)?;
    if indents(blocks).flatten().any(|word| *word != 0) {
        return Err(Refusal::IndentNotZero);
    }
    let room = list.get_mut(..size).ok_or(Refusal::OutputRoom)?;
    in_order(blocks, text).flatten().fold(number::put(count, room), |room, block| block.put(room));
    Ok(size)
}

/// None if a block breaks a rule, or if the text goes on behind the last one.
fn size_of_blocks(blocks: &[u32], text: &[u8]) -> Option<usize> {
    let (mut size, mut end, mut before) = (0, 0, None);
    for (block, indents) in in_order(blocks, text).zip(indents(blocks)) {
        let style = before.filter(|(_, before)| *before == indents).map(|(style, _)| style);
        let block = block.filter(|block| block.is_good(style.as_ref()))?;
        size += block.size();
        end += block.text.len();
        before = Some((block.style, indents));
    }
    (end == text.len()).then_some(size)
}

/// The blocks of the records; None for one whose text does not follow that of the one before.
fn in_order<'a>(blocks: &'a [u32], text: &'a [u8]) -> impl Iterator<Item = Option<Block<'a>>> + 'a {
    blocks.chunks_exact(BLOCK_WORDS).scan(0, move |place, record| {
        let block = Block::of_record(record, text, *place);
        *place += block.map_or(0, |block| block.text.len());
        Some(block)
    })
}

/// Left, right and first line of each record.
fn indents(blocks: &[u32]) -> impl Iterator<Item = &[u32]> {
    blocks.chunks_exact(BLOCK_WORDS).map(|record| &record[STORED_WORDS..STYLE_WORDS])
}
