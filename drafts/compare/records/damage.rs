//! Lists and records made from good ones by small damage.

use crate::listed::{ALPHABET, WORDS};
use crate::Records;
use codec::{BLOCK_WORDS, LENGTH, PLACE, STORED_WORDS, STYLE_WORDS};
use common::random::Random;
use std::ops::Range;

/// The list after a few changes: mostly one.
pub fn list(random: &mut Random, good: &[u8]) -> Vec<u8> {
    let mut list = good.to_vec();
    for _ in 0..changes(random) {
        change_bytes(random, &mut list);
    }
    list
}

/// Records after a few changes to their words or their text.
pub fn records(random: &mut Random, good: &Records) -> Records {
    let mut records = good.clone();
    for _ in 0..changes(random) {
        match random.below(8) {
            0 => change_bytes(random, &mut records.text),
            1 => move_border(random, &mut records.blocks),
            2 => copy_style(random, &mut records.blocks),
            3 => indent(random, &mut records.blocks),
            _ => change_words(random, &mut records.blocks),
        }
    }
    records
}

fn changes(random: &mut Random) -> usize {
    if random.once_in(3) {
        random.between(2, 3)
    } else {
        1
    }
}

fn change_bytes(random: &mut Random, bytes: &mut Vec<u8>) {
    let part = part(random, bytes.len());
    match random.below(6) {
        0 => drop(bytes.drain(part)),
        1 => {
            let byte = random.byte(&ALPHABET);
            bytes.insert(part.start, byte);
        }
        2 => bytes.truncate(part.start),
        3 => {
            let copy = bytes[part.clone()].to_vec();
            bytes.splice(part.end..part.end, copy);
        }
        _ => {
            if let Some(byte) = bytes.get_mut(part.start) {
                *byte = other_byte(random, *byte);
            }
        }
    }
}

fn other_byte(random: &mut Random, byte: u8) -> u8 {
    match random.below(5) {
        0 => byte ^ 0x80,
        1 => byte.wrapping_add(1),
        2 => byte.wrapping_sub(1),
        3 => random.draw() as u8,
        _ => random.byte(&ALPHABET),
    }
}

fn change_words(random: &mut Random, words: &mut Vec<u32>) {
    let part = part(random, words.len());
    let whole = part.start / BLOCK_WORDS * BLOCK_WORDS;
    let record = whole..(whole + BLOCK_WORDS).min(words.len());
    match random.below(12) {
        0 => drop(words.drain(part)),
        1 => words.insert(part.start, *random.pick(&WORDS)),
        2 => words.truncate(part.start),
        3 => drop(words.drain(record)),
        4 => {
            let copy = words[record.clone()].to_vec();
            words.splice(record.end..record.end, copy);
        }
        _ => {
            if let Some(word) = words.get_mut(part.start) {
                *word = other_word(random, *word);
            }
        }
    }
}

fn other_word(random: &mut Random, word: u32) -> u32 {
    match random.below(4) {
        0 => word.wrapping_add(1),
        1 => word.wrapping_sub(1),
        2 => word.wrapping_neg(),
        _ => *random.pick(&WORDS),
    }
}

/// A byte of text goes over to the next block: places follow on still, a character may be split, a
/// text be empty.
fn move_border(random: &mut Random, words: &mut [u32]) {
    let blocks = words.len() / BLOCK_WORDS;
    if blocks >= 2 {
        let next = random.between(1, blocks - 1) * BLOCK_WORDS;
        let before = next - BLOCK_WORDS;
        words[before + LENGTH] = words[before + LENGTH].wrapping_sub(1);
        words[next + PLACE] = words[next + PLACE].wrapping_sub(1);
        words[next + LENGTH] = words[next + LENGTH].wrapping_add(1);
    }
}

/// A block gets the style of the block before it.
fn copy_style(random: &mut Random, words: &mut [u32]) {
    let blocks = words.len() / BLOCK_WORDS;
    if blocks >= 2 {
        let next = random.between(1, blocks - 1) * BLOCK_WORDS;
        let before = next - BLOCK_WORDS;
        words.copy_within(before..before + STYLE_WORDS, next);
    }
}

/// A block gets an indent.
fn indent(random: &mut Random, words: &mut [u32]) {
    let blocks = words.len() / BLOCK_WORDS;
    if blocks >= 1 {
        let record = random.below(blocks) * BLOCK_WORDS;
        words[record + random.between(STORED_WORDS, STYLE_WORDS - 1)] = *random.pick(&WORDS);
    }
}

/// Mostly one element; the empty part at the end if there is none.
fn part(random: &mut Random, length: usize) -> Range<usize> {
    let start = random.below(length + 1);
    let most = if random.once_in(6) { length - start } else { (length - start).min(1) };
    start..start + random.below(most + 1)
}
