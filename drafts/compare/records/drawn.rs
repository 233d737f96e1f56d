//! Records at random that a list may hold, or might but for indents, with values at the edges of
//! fields, folds and groups.

use crate::Records;
use codec::{STORED_WORDS, STYLE_WORDS};
use common::random::Random;

/// Around the ends of the ranges and of the groups, for numbers that stand as they are.
const EDGES: [u32; 14] = [
    0,
    1,
    12,
    63,
    127,
    128,
    129,
    16_383,
    16_384,
    65_535,
    2_097_151,
    2_097_152,
    268_435_456,
    2_147_483_647,
];
/// The same for those that are folded.
const SIGNED: [i32; 18] = [
    0,
    1,
    -1,
    63,
    64,
    -64,
    -65,
    8_191,
    8_192,
    -8_192,
    -8_193,
    1_048_576,
    -1_048_577,
    134_217_727,
    134_217_728,
    i32::MAX,
    i32::MIN + 1,
    i32::MIN,
];
/// The first and the last characters of each length in UTF-8, and those around the surrogates.
const CHARACTERS: [char; 10] = [
    '\0',
    'a',
    '\u{7F}',
    '\u{80}',
    '\u{7FF}',
    '\u{800}',
    '\u{D7FF}',
    '\u{E000}',
    '\u{FFFF}',
    '\u{10000}',
];

type Style = [u32; STYLE_WORDS];

pub fn records(random: &mut Random) -> Records {
    with_words(random, STORED_WORDS)
}

/// Records that have an indent, and no other fault.
pub fn indented(random: &mut Random) -> Records {
    loop {
        let records = with_words(random, STYLE_WORDS);
        if records.has_indent() {
            return records;
        }
    }
}

/// Records in whose styles so many words are drawn, and the others are zero.
fn with_words(random: &mut Random, words: usize) -> Records {
    with_texts(random, words, text)
}

/// The same, with texts drawn in a way of their own, for so many blocks.
pub fn with_texts(
    random: &mut Random,
    words: usize,
    text: impl Fn(&mut Random, usize) -> String,
) -> Records {
    let count = match random.below(40) {
        0 => 0,
        1..24 => random.between(1, 4),
        24..39 => random.between(1, 40),
        // Two groups for the block count.
        _ => random.between(120, 300),
    };
    let mut records = Records::default();
    let mut before = [u32::MAX; STYLE_WORDS];
    for _ in 0..count {
        let style = style_after(random, &before, words);
        records.push(&style, text(random, count).as_bytes());
        before = style;
    }
    records
}

/// Often the style before it but for one word.
fn style_after(random: &mut Random, before: &Style, words: usize) -> Style {
    let mut style = *before;
    while style == *before {
        if before[0] == u32::MAX || random.once_in(3) {
            style = [0; STYLE_WORDS];
            (0..words).for_each(|place| set(random, &mut style, place));
        } else {
            let place = random.below(words);
            set(random, &mut style, place);
        }
    }
    style
}

fn set(random: &mut Random, style: &mut Style, place: usize) {
    style[place] = match place {
        0..3 => up_to(random, 65_535),
        3 => up_to(random, 127),
        4 => up_to(random, 3),
        7 => up_to(random, 1),
        8 => up_to(random, 2_147_483_647),
        _ => signed(random),
    };
    // An automatic line has no value.
    if style[7] == 0 {
        style[8] = 0;
    }
}

fn up_to(random: &mut Random, most: u32) -> u32 {
    match random.below(4) {
        0 => most,
        1 => (random.draw() % (u64::from(most) + 1)) as u32,
        _ => (*random.pick(&EDGES)).min(most),
    }
}

fn signed(random: &mut Random) -> u32 {
    match random.below(4) {
        0 => random.draw() as u32,
        1 => random.below(2_000) as u32,
        _ => *random.pick(&SIGNED) as u32,
    }
}

/// Now and then so long that its length has two groups or three; not in a long list.
fn text(random: &mut Random, blocks: usize) -> String {
    let length = match random.below(400) {
        0 if blocks < 5 => random.between(16_380, 16_390),
        0..20 => random.between(100, 300),
        20..100 => random.between(10, 40),
        _ => random.between(1, 6),
    };
    let ascii = random.once_in(2);
    (0..length).map(|_| if ascii { 'e' } else { character(random) }).collect()
}

fn character(random: &mut Random) -> char {
    match random.below(6) {
        0 => char::from_u32(random.below(0x11_0000) as u32).unwrap_or('\u{10FFFF}'),
        1 => *random.pick(&CHARACTERS),
        2 => '\u{E9}',
        3 => '\u{2014}',
        4 => '\u{1F600}',
        _ => 'n',
    }
}
