//! Texts, bytes and letters at random.

use crate::texts::WIDTHS;
use common::random::Random;
use common::{fragments, grammar, mutate, reading_grammar, standard_grammar};

/// Bytes of the longest letters: a little more than are read.
const LONGEST: usize = 8_400;
const WHITE: [char; 6] = ['\t', '\n', '\x0b', '\x0c', '\r', ' '];
/// Characters that are white elsewhere, or stand beside those that are.
#[rustfmt::skip]
const NEAR_WHITE: [char; 20] = [
    '\0', '\x08', '\x0e', '\x1c', '\x1f', '!', '\x7f', '\u{80}', '\u{85}', '\u{89}', '\u{8d}',
    '\u{a0}', '\u{1680}', '\u{180e}', '\u{2003}', '\u{200b}', '\u{2028}', '\u{205f}', '\u{3000}',
    '\u{feff}',
];
/// The ends of what one to four bytes hold.
#[rustfmt::skip]
const ENDS: [char; 10] = [
    '\u{7f}', '\u{80}', '\u{7ff}', '\u{800}', '\u{d7ff}', '\u{e000}', '\u{fffd}', '\u{ffff}',
    '\u{10000}', '\u{10ffff}',
];
/// What the words of a letter may be parted by, or hold.
#[rustfmt::skip]
const PIECES: [&str; 30] = [
    " ", " ", " ", "  ", "\t", "\n", "\n ", "\x0b", "\\tab ", "\\line ", "\\par ", "\\par\\par ",
    "\\\n", "\\\r\n", "\\\r", "\\~", "\\_", "\\-", "\\u8212 ?", "\\u8195 ", "\\u160 ", "\\u133 ",
    "\\'e9", "\\'a0", "\\'85", "\\u-10179 \\u-8704 ", "\\emdash ", "\\b ", "{\\i x}", "{\\*\\y z}",
];
/// Bytes that are drawn more often than others.
const BYTES: &[u8] = b" \t\n\x08\x0eaz\x7f\x80\x85\xA0\xBF\xC0\xC3\xE2\xF0\xFF";

/// A text with white space now and then.
pub fn text(random: &mut Random) -> String {
    let white = *random.pick(&[3, 10, 50, 150, 300]);
    let length = length(random);
    text_of(random, length, white)
}

/// One that is mostly white space.
pub fn dense(random: &mut Random) -> String {
    let white = *random.pick(&[500, 700, 900, 990]);
    let length = length(random) + random.below(600);
    text_of(random, length, white)
}

/// Around the limit, or up to some thousand.
fn length(random: &mut Random) -> usize {
    match random.below(100) {
        0..30 => random.below(40),
        30..85 => random.between(100, 240),
        85..98 => random.below(800),
        _ => random.below(5_000),
    }
}

/// So many characters, of a thousand so many white.
fn text_of(random: &mut Random, length: usize, white: usize) -> String {
    let family = random.below(5);
    let draw = |_| {
        if random.below(1_000) < white {
            *random.pick(&WHITE)
        } else {
            character(random, family)
        }
    };
    (0..length).map(draw).collect()
}

fn character(random: &mut Random, family: usize) -> char {
    match family {
        0 => char::from(b'a' + random.below(26) as u8),
        1 => WIDTHS[random.below(WIDTHS.len())].chars().next().expect("one character"),
        2 => *random.pick(&NEAR_WHITE),
        3 => *random.pick(&ENDS),
        _ => char::from_u32(random.below(0x11_0000) as u32).unwrap_or('?'),
    }
}

/// Bytes that are mostly no UTF-8.
pub fn bytes(random: &mut Random) -> Vec<u8> {
    let length = length(random);
    match random.below(3) {
        0 => (0..length).map(|_| random.draw() as u8).collect(),
        1 => (0..length).map(|_| random.byte(BYTES)).collect(),
        _ => damaged(random),
    }
}

/// A text after a few changes of bytes.
fn damaged(random: &mut Random) -> Vec<u8> {
    let mut bytes = text(random).into_bytes();
    for _ in 0..random.between(1, 6) {
        let place = random.below(bytes.len() + 1);
        match random.below(3) {
            0 => bytes.insert(place, random.byte(BYTES)),
            1 if place < bytes.len() => drop(bytes.remove(place)),
            _ if place < bytes.len() => bytes[place] = random.byte(BYTES),
            _ => bytes.truncate(place / 2),
        }
    }
    bytes
}

/// A letter of words: mostly sound, with about as much text as a snippet holds.
pub fn letter_of_words(random: &mut Random) -> Vec<u8> {
    let size = if random.once_in(20) { random.below(7_000) } else { random.between(20, 600) };
    let parted = random.between(2, 40);
    let mut letter = random.pick(&["{", "{\\rtf1 ", "{\\rtf1\\ansi\\uc0 "]).as_bytes().to_vec();
    while letter.len() < size {
        if random.once_in(parted) {
            letter.extend_from_slice(random.pick(&PIECES).as_bytes());
        } else {
            letter.push(b'a' + random.below(26) as u8);
        }
    }
    letter.push(b'}');
    letter
}

/// A letter of the grammars, or a sequence of fragments; every second one has words before its last
/// byte, since few of these letters have more text than a snippet holds.
pub fn letter(random: &mut Random) -> Vec<u8> {
    let size = size(random);
    let mut letter = match random.below(8) {
        0..3 => reading_grammar::letter(random, size),
        3..6 => standard_grammar::letter(random, size),
        6 => grammar::letter(random, size),
        _ => fragments::soup(random, 24),
    };
    if random.once_in(2) {
        let place = letter.len().saturating_sub(1);
        letter.splice(place..place, letter_of_words(random));
    }
    letter.truncate(LONGEST);
    letter
}

/// The same, or one of words, after a few changes.
pub fn damaged_letter(random: &mut Random, whole: &[u8]) -> Vec<u8> {
    mutate::mutated(random, whole, LONGEST)
}

/// Mostly short.
fn size(random: &mut Random) -> usize {
    match random.below(1_000) {
        0..500 => random.between(2, 80),
        500..900 => random.between(80, 800),
        900..990 => random.between(800, 3_000),
        _ => random.between(3_000, LONGEST),
    }
}
