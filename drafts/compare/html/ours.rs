//! Our static library, called over its C interface, or over the bridge on another processor; or
//! the models in its place.

use model::{Kind, BLOCKS, BLOCK_WORDS, TEXT, TOKEN_WORDS};
use records::Records;

#[cfg(archive)]
pub const NAME: &str = "our library";
#[cfg(bridge)]
pub const NAME: &str = "our library, under an emulator";
#[cfg(not(any(archive, bridge)))]
pub const NAME: &str = "the model in place of our library";

#[cfg(archive)]
pub use library::html;

#[cfg(bridge)]
pub use bridged::{html, send};

#[cfg(not(any(archive, bridge)))]
pub fn html(blocks: &[u32], text: &[u8], room: &mut [u8]) -> crate::call::Numbers {
    rule::Rule::right().write(blocks, text, room)
}

/// Sends calls ahead; each is then made, in the same order. Only the bridge has use for it.
#[cfg(not(bridge))]
pub fn send(_calls: &[crate::call::Call]) {}

/// Elements that hold whatever a letter has.
fn rooms(letter: &[u8]) -> [usize; 5] {
    let most = letter.len().max(1);
    [most * TOKEN_WORDS, 256 * 3, 256, most * BLOCK_WORDS, 2 * most]
}

/// The blocks and the text of a letter; none where it is refused.
pub fn read(letter: &[u8], kind: Kind) -> Option<Records> {
    let sizes = rooms(letter);
    let [a, b, c, d, text] = sizes;
    let mut words = [a, b, c, d].map(|size| vec![0; size]);
    let mut text = vec![0; text];
    let numbers = numbers(letter, kind, words.each_mut().map(Vec::as_mut_slice), &mut text);
    let [blocks, bytes] = [2 + BLOCKS, 2 + TEXT].map(|count| numbers[count] as usize);
    let mut blocks_room = words[BLOCKS].split_off(0);
    blocks_room.truncate(blocks * BLOCK_WORDS);
    text.truncate(bytes);
    (numbers[0] == 0).then_some(Records { blocks: blocks_room, text })
}

#[cfg(archive)]
fn numbers(letter: &[u8], kind: Kind, words: [&mut [u32]; 4], text: &mut [u8]) -> model::Numbers {
    let slices = library::Slices { words, text };
    match kind {
        Kind::Plain => library::read_plain(letter, slices),
        Kind::Paragraphs => library::read_paragraphs(letter, slices),
        Kind::Standard => library::read_standard(letter, slices),
    }
}

#[cfg(bridge)]
fn numbers(letter: &[u8], kind: Kind, words: [&mut [u32]; 4], text: &mut [u8]) -> model::Numbers {
    use common::bridge;
    let function = match kind {
        Kind::Plain => bridge::PLAIN,
        Kind::Paragraphs => bridge::PARAGRAPHS,
        Kind::Standard => bridge::STANDARD,
    };
    let mut request = Vec::new();
    bridge::request(&mut request, function, letter, rooms(letter), 0xAB);
    bridge::send(&request);
    bridge::receive(words, text)
}

#[cfg(not(any(archive, bridge)))]
fn numbers(letter: &[u8], kind: Kind, words: [&mut [u32]; 4], text: &mut [u8]) -> model::Numbers {
    let (answer, _) = model::read(letter, kind, &rooms(letter));
    let blocks = answer.blocks.concat();
    words[BLOCKS][..blocks.len()].copy_from_slice(&blocks);
    text[..answer.text.len()].copy_from_slice(&answer.text);
    answer.numbers()
}

/// The answers to calls that were sent ahead.
#[cfg(bridge)]
mod bridged {
    use crate::call::{Call, Numbers};
    use common::bridge;

    pub fn send(calls: &[Call]) {
        let mut requests = Vec::new();
        for call in calls {
            let blocks = call.records.blocks.iter().flat_map(|word| word.to_le_bytes());
            let source: Vec<u8> = blocks.chain(call.records.text.iter().copied()).collect();
            let sizes = [call.records.blocks.len(), 0, 0, 0, call.room];
            bridge::request(&mut requests, bridge::HTML, &source, sizes, call.junk);
        }
        bridge::send(&requests);
    }

    pub fn html(_blocks: &[u32], _text: &[u8], room: &mut [u8]) -> Numbers {
        let none = [&mut [][..], &mut [], &mut [], &mut []];
        let [refusal, bytes, high, ..] = bridge::receive(none, room).map(u64::from);
        [refusal, high << 32 | bytes]
    }
}
