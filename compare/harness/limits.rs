//! Refusals 1 and 2 are limits of ours, so they are expected here and not asked of the crate.

use crate::judge::Judge;
use common::cut::{NOT_ASCII, SOURCE_LIMIT, TOO_LONG};
use common::letters::{repeated, TELLING};

/// Each byte above 127 in each place of each telling letter, whatever else is wrong with it.
pub fn bytes_above_127(judge: &mut Judge) {
    for letter in TELLING {
        for place in 0..=letter.len() {
            for byte in 128..=255 {
                let mut put = letter.to_vec();
                put.insert(place, byte);
                judge.expect_refused(&put, NOT_ASCII, byte % 16 == 0);
            }
        }
    }
    for text in ["\u{e9}", "{\u{2014}}", "{\u{1f600}}", "\u{a0}{}", "{}\u{2003}", "{\\\u{e9}}"] {
        judge.expect_refused(text.as_bytes(), NOT_ASCII, true);
    }
}

/// Both sides of the length limit, which counts the bytes before trimming.
pub fn length(judge: &mut Judge) {
    for size in [SOURCE_LIMIT - 1, SOURCE_LIMIT] {
        for letter in of_size(size) {
            judge.letter(&letter);
            for place in [0, size / 2, size - 1] {
                let mut put = letter.clone();
                put[place] = 0xe9;
                judge.expect_refused(&put, NOT_ASCII, false);
            }
        }
    }
    for size in
        [SOURCE_LIMIT + 1, SOURCE_LIMIT + 2, 2 * SOURCE_LIMIT, 2 * SOURCE_LIMIT + 2, 1 << 20]
    {
        for mut letter in of_size(size) {
            judge.expect_refused(&letter, TOO_LONG, true);
            letter[size / 2] = 0xe9;
            judge.expect_refused(&letter, TOO_LONG, false);
        }
    }
}

/// Sound letters, blank ones, ones that are short once trimmed, and one of each refusal 3 to 6.
fn of_size(size: usize) -> Vec<Vec<u8>> {
    let padded = |front: &[u8], back: &[u8]| {
        let space = vec![b' '; size - front.len() - back.len()];
        [front, &space, back].concat()
    };
    vec![
        repeated(b"a", size),
        repeated(b"{", size),
        repeated(b"\\b1 ", size),
        vec![b' '; size],
        padded(b"{}", b""),
        padded(b"", b"{}"),
        padded(b"{\\'4}", b"}"),
        padded(b"{\\'zz}", b"}"),
        padded(b"{\\b-}", b"}"),
        padded(b"{", b"a"),
    ]
}
