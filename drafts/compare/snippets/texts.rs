//! Texts that are listed rather than drawn: each function hands its texts to a sink.

use crate::rule::MOST;

pub type Sink<'a> = dyn FnMut(&[u8]) + 'a;

/// White space, characters that only look like it, and characters of one to four bytes.
const CHARACTERS: [char; 11] =
    ['\t', '\n', '\x0b', '\r', ' ', 'a', 'b', '\u{a0}', '\u{85}', '\u{2003}', '\u{1f600}'];
/// White space, the ends of what continues a character, and bytes that start one.
const BYTES: [u8; 8] = [b' ', b'\t', b'a', 0x80, 0xBF, 0xC3, 0xF0, 0xFF];
/// 01's white space.
const WHITE: [&str; 6] = ["\t", "\n", "\x0b", "\x0c", "\r", " "];
/// Runs of it, inside a text and at its ends.
const RUNS: [&str; 4] = [" ", "\t", "  ", " \r\n\x0b\x0c\t "];
const ENDS: [[&str; 2]; 4] = [["", ""], [" ", ""], ["", "\n"], ["\r\n", "\t "]];
/// A character of each length in UTF-8, none of them white.
pub const WIDTHS: [&str; 4] = ["x", "\u{e9}", "\u{2014}", "\u{1f600}"];
/// Characters of the texts around the limit.
const LENGTHS: std::ops::RangeInclusive<usize> = MOST - 2..=MOST + 3;

/// All texts of up to so many of `CHARACTERS`.
pub fn every_text(longest: usize, sink: &mut Sink) {
    every(CHARACTERS.len(), longest, &mut |digits| {
        let text: String = digits.iter().map(|digit| CHARACTERS[*digit]).collect();
        sink(text.as_bytes());
    });
}

/// All strings of up to so many of `BYTES`.
pub fn every_bytes(longest: usize, sink: &mut Sink) {
    every(BYTES.len(), longest, &mut |digits| {
        sink(&digits.iter().map(|digit| BYTES[*digit]).collect::<Vec<_>>());
    });
}

/// All numbers of up to so many digits, shortest first.
fn every(base: usize, longest: usize, sink: &mut dyn FnMut(&[usize])) {
    for length in 0..=longest {
        let mut digits = vec![0; length];
        for number in 0..base.pow(length as u32) {
            let mut left = number;
            for digit in digits.iter_mut().rev() {
                *digit = left % base;
                left /= base;
            }
            sink(&digits);
        }
    }
}

/// Around the limit: white space at one or two places of a text of one character, in each way, and
/// at its ends.
pub fn spaced(sink: &mut Sink) {
    for unit in WIDTHS {
        for length in LENGTHS {
            for places in pairs(length) {
                for run in RUNS {
                    let text = put(&vec![unit; length], &places, run);
                    ENDS.iter().for_each(|[front, back]| {
                        sink(format!("{front}{text}{back}").as_bytes());
                    });
                }
            }
        }
    }
}

/// No place, one, or two of those that tell something in a text of that length.
fn pairs(length: usize) -> Vec<Vec<usize>> {
    let places: Vec<usize> = [1, 2, 70].into_iter().chain(MOST - 4..length).collect();
    let two = places.iter().flat_map(|one| {
        places.iter().filter(move |other| *other > one).map(move |other| vec![*one, *other])
    });
    let one = places.iter().map(|place| vec![*place]);
    [vec![]].into_iter().chain(one).chain(two).collect()
}

/// Units with others in their places.
fn put(units: &[&str], places: &[usize], other: &str) -> String {
    let each = units.iter().enumerate();
    each.map(|(place, unit)| if places.contains(&place) { other } else { unit }).collect()
}

/// Around the limit: a wide character at each place near it, a space at another or none.
pub fn wide(sink: &mut Sink) {
    for length in LENGTHS {
        for (place, space) in near(length).flat_map(|p| near(length).map(move |s| (p, s))) {
            for unit in ["\u{a0}", "\u{85}", "\u{e9}", "\u{2003}", "\u{2014}", "\u{1f600}"] {
                let mut units = vec!["x"; length];
                units[space] = " ";
                units[place] = unit;
                sink(units.concat().as_bytes());
            }
        }
    }
}

fn near(length: usize) -> impl Iterator<Item = usize> {
    MOST - 4..length
}

/// Words of each length over and over, one space or more between them, around the limit.
pub fn words(sink: &mut Sink) {
    for length in (1..=20).chain(MOST / 2 - 2..=MOST / 2 + 2).chain(MOST - 2..=MOST + 2) {
        for run in RUNS {
            let one = "x".repeat(length) + run;
            let all = one.repeat(2 * MOST / length);
            for characters in (MOST - 8..=MOST + 8).chain([2 * MOST]) {
                sink(all.chars().take(characters).collect::<String>().as_bytes());
            }
        }
    }
}

/// White space alone, of each sort and mixed.
pub fn white_alone(sink: &mut Sink) {
    let mixed = WHITE.concat();
    for unit in WHITE.into_iter().chain([mixed.as_str()]) {
        for count in [0, 1, 2, 3, MOST - 1, MOST, MOST + 1, 2 * MOST, 5_000] {
            sink(unit.repeat(count).as_bytes());
        }
    }
}

/// Each byte alone, in a word, and between words.
pub fn each_byte(sink: &mut Sink) {
    for byte in 0..=255 {
        sink(&[byte]);
        for (front, back) in [("a", "b"), (" ", "b"), ("a", "\n"), ("a ", " b"), ("\u{2014}", "")] {
            sink(&[front.as_bytes(), &[byte], back.as_bytes()].concat());
            sink(&[front.as_bytes(), &[byte, byte], back.as_bytes()].concat());
        }
    }
}

/// Up to a million bytes: one word, white space in front and behind, words.
pub fn long(sink: &mut Sink) {
    for size in [65_535, 65_536, 65_537, 1_000_000] {
        for unit in ["x", "\u{1f600}", "ab ", "\t"] {
            let many = unit.repeat(size / unit.len());
            sink(many.as_bytes());
            sink(format!("a{many}").as_bytes());
            sink(format!("{many}a b").as_bytes());
        }
    }
}
