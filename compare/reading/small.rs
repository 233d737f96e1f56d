//! Sizes of rooms.

use common::random::Random;
use model::{Answer, Rooms, BLOCKS, BLOCK_WORDS, TEXT, TOKENS, TOKEN_WORDS, WIDTHS};

/// Rooms that hold everything, whatever the answer is: no byte gives more than one token, font or
/// colour, no two bytes more than three of text (`\_` does in standard reading), and no three bytes
/// more than one block.
pub fn ample(bytes: usize) -> Rooms {
    // More than the 256 that count.
    let fonts = bytes.min(260);
    let tokens = (bytes + 2) * TOKEN_WORDS - 1;
    let blocks = (bytes / 3 + 2) * BLOCK_WORDS + 5;
    [tokens, fonts * 3 + 2, fonts + 1, blocks, bytes + bytes / 2 + 3]
}

/// Rooms that hold the answer, often with little to spare for tokens, blocks and text. A table that
/// a later one replaces may have needed more than the answer's, so theirs stay ample.
pub fn large(random: &mut Random, answer: &Answer, bytes: usize) -> Rooms {
    let mut rooms = ample(bytes);
    if answer.refusal.number == 0 && !(bytes < 100 && random.once_in(4)) {
        let counts = answer.counts();
        for i in [TOKENS, BLOCKS, TEXT] {
            rooms[i] = counts[i] * WIDTHS[i] + random.below(3 * WIDTHS[i] + 1);
        }
    }
    rooms
}

/// Rooms of which about two are around or below the size that is just enough.
pub fn tight(random: &mut Random, answer: &Answer, bytes: usize) -> Rooms {
    let mut rooms = ample(bytes);
    let counts = answer.counts();
    for (i, room) in rooms.iter_mut().enumerate() {
        if random.below(5) < 2 {
            // How far a refused letter came is not known: small rooms may stop it sooner.
            let records = if answer.refusal.number == 0 { counts[i] } else { random.below(8) };
            *room = around(random, records * WIDTHS[i], WIDTHS[i]);
        }
    }
    rooms
}

/// Sizes around and below the one that is just enough.
pub fn around(random: &mut Random, enough: usize, width: usize) -> usize {
    match random.below(6) {
        0 => 0,
        1 => random.below(width),
        2 => enough,
        3 => enough.saturating_sub(1),
        4 => enough.saturating_sub(width) + random.below(width),
        _ => random.below(enough + width + 1),
    }
}

/// Each room of each size up to more than enough while the others are ample, and each pair of
/// sizes of the block and the text room.
pub fn every_size(answer: &Answer, bytes: usize) -> Vec<Rooms> {
    let counts = answer.counts();
    let most = |i: usize| counts[i].max(2) * WIDTHS[i] + WIDTHS[i] + 1;
    let mut all = Vec::new();
    for i in 0..5 {
        for size in 0..=most(i) {
            let mut rooms = ample(bytes);
            rooms[i] = size;
            all.push(rooms);
        }
    }
    for blocks in (0..=most(BLOCKS)).step_by(WIDTHS[BLOCKS] - 1) {
        for text in 0..=most(TEXT) {
            let mut rooms = ample(bytes);
            (rooms[BLOCKS], rooms[TEXT]) = (blocks, text);
            all.push(rooms);
        }
    }
    all
}
