//! Sizes of rooms: words of blocks, bytes of text or of a list.

use crate::call::Records;
use codec::{BLOCK_WORDS, STORED_WORDS};
use common::random::Random;

/// Rooms that hold whatever a list has: a block has at least its style, a length and a byte of text.
pub fn ample(list: &[u8]) -> [usize; 2] {
    [(list.len() / (STORED_WORDS + 2) + 1) * BLOCK_WORDS + 5, list.len() + 3]
}

/// A room that holds the list of such records: no number has more than five groups.
pub fn most(records: &Records) -> usize {
    5 + 5 * records.blocks.len() + records.text.len()
}

/// Rooms that hold so many blocks and bytes, often with nothing or little to spare.
pub fn large(random: &mut Random, blocks: usize, text: usize) -> [usize; 2] {
    let words = blocks * BLOCK_WORDS;
    if random.once_in(3) {
        return [words, text];
    }
    [words + random.below(2 * BLOCK_WORDS + 1), text + random.below(9)]
}

/// Rooms of which one or both are around or below what is just enough.
pub fn tight(random: &mut Random, blocks: usize, text: usize) -> [usize; 2] {
    let mut rooms = large(random, blocks, text);
    let which = random.below(3);
    if which != 0 {
        rooms[0] = around(random, blocks * BLOCK_WORDS, BLOCK_WORDS);
    }
    if which != 1 {
        rooms[1] = around(random, text, 1);
    }
    rooms
}

/// A size for `enough` elements in records of `width`.
pub fn around(random: &mut Random, enough: usize, width: usize) -> usize {
    match random.below(6) {
        0 => 0,
        1 => enough,
        2 | 3 => enough.saturating_sub(1),
        4 => enough.saturating_sub(width) + random.below(width),
        _ => random.below(enough + width + 1),
    }
}

/// Each size of one room up to more than enough while the other is ample, and each number of whole
/// blocks, a word more and a word less, with each size of the text room.
pub fn every_size(blocks: usize, text: usize) -> Vec<[usize; 2]> {
    let (words, bytes) = ((blocks + 1) * BLOCK_WORDS + 1, text + 2);
    let mut all: Vec<[usize; 2]> = (0..=words).map(|size| [size, bytes]).collect();
    for whole in (0..=blocks + 1).map(|records| records * BLOCK_WORDS) {
        for size in whole.saturating_sub(1)..=whole + 1 {
            all.extend((0..=bytes).map(|bytes| [size, bytes]));
        }
    }
    all
}
