//! Listed records.

use crate::{Records, SignedStyle as Style};
use codec::STORED_WORDS;

/// Bytes that mean something as a number, as a group that goes on, or as text.
pub const ALPHABET: [u8; 10] = [0, 1, 2, 12, 97, 127, 128, 129, 195, 255];

/// Both ends of each class of bytes in the grammar of UTF-8 (RFC 3629, section 4).
const UTF8: [u8; 24] = [
    0x00, 0x7F, 0x80, 0x8F, 0x90, 0x9F, 0xA0, 0xBF, 0xC0, 0xC1, 0xC2, 0xDF, 0xE0, 0xE1, 0xEC, 0xED,
    0xEE, 0xEF, 0xF0, 0xF1, 0xF3, 0xF4, 0xF5, 0xFF,
];

/// Words of a record around the limits of the fields.
pub const WORDS: [u32; 18] = [
    0,
    1,
    2,
    3,
    4,
    13,
    126,
    127,
    128,
    65_534,
    65_535,
    65_536,
    2_147_483_646,
    2_147_483_647,
    2_147_483_648,
    2_147_483_649,
    4_294_967_294,
    4_294_967_295,
];

pub const FRESH: Style = [0, 0, 12, 0, 0, 0, 0, 0, 0, 0, 0, 0, 0, 0];
pub const BOLD: Style = [0, 0, 12, 1, 0, 0, 0, 0, 0, 0, 0, 0, 0, 0];

/// Records that list each field at both its ends, and texts of characters of each length.
pub fn telling() -> Vec<Records> {
    const MIN: i32 = i32::MIN;
    const MAX: i32 = i32::MAX;
    let least = [0, 0, 0, 0, 0, MIN, MIN, 1, 0, MIN, MIN, 0, 0, 0];
    let most = [65_535, 65_535, 65_535, 127, 3, MAX, MAX, 1, MAX, MAX, MAX, 0, 0, 0];
    let minus = [300, 2, 24, 64, 2, -1, -64, 1, 240, -65, -8_193, 0, 0, 0];
    let (fresh, bold) = (FRESH, BOLD);
    let long = "The quick brown fox jumps over the lazy dog, and does so again. ".repeat(3);
    let all: [&[(Style, &str)]; 7] = [
        &[],
        &[(fresh, "a")],
        &[(fresh, "a"), (bold, "b"), (fresh, "c")],
        &[(least, "\u{7FF}"), (most, "\u{FFFF}\u{10FFFF}")],
        &[(minus, "\u{0}")],
        &[(most, "z"), (fresh, "\u{E9}a\u{2014}a\u{1F600}a")],
        &[(fresh, &long), (bold, &long[..128])],
    ];
    all.map(Records::of).into()
}

/// Records with indents, and the refusals that A5 gives them, in whatever room.
pub fn indented() -> Vec<(Records, u32)> {
    let [left, right, first] = [[7, 0, 0], [0, -1, 0], [0, 0, i32::MIN]].map(|indents| {
        let mut style = FRESH;
        style[STORED_WORDS..].copy_from_slice(&indents);
        style
    });
    let mut faulty = BOLD;
    faulty[0] = 65_536;
    let all: [(&[(Style, &str)], u32); 12] = [
        (&[(left, "a")], 26),
        (&[(right, "a")], 26),
        (&[(first, "a")], 26),
        (&[(FRESH, "a"), (BOLD, "b"), (right, "c")], 26),
        // Neighbours that differ in an indent alone have two styles.
        (&[(FRESH, "a"), (left, "b"), (FRESH, "c")], 26),
        (&[(left, "a"), (right, "b"), (first, "c")], 26),
        (&[(left, "a"), (left, "b")], 24),
        // A fault behind the indent, or in front of it.
        (&[(left, "a"), (faulty, "b")], 24),
        (&[(left, "a"), (BOLD, "")], 24),
        (&[(left, "a"), (FRESH, "b"), (FRESH, "c")], 24),
        (&[(FRESH, "a"), (FRESH, "b"), (left, "c")], 24),
        (&[(faulty, "a"), (first, "b")], 24),
    ];
    let mut all = all.map(|(blocks, refusal)| (Records::of(blocks), refusal)).to_vec();
    // Words that are no whole block, and text behind the last one.
    let [mut longer, mut left_over] = [(); 2].map(|()| Records::of(&[(left, "a")]));
    longer.blocks.push(0);
    left_over.text.push(b'b');
    all.extend([longer, left_over].map(|records| (records, 24)));
    all
}

/// All strings of at most so many bytes of the alphabet behind a start.
pub fn every_string(
    list: &mut Vec<u8>,
    alphabet: &[u8],
    depth: usize,
    sink: &mut dyn FnMut(&[u8]),
) {
    sink(list);
    if depth > 0 {
        for byte in alphabet {
            list.push(*byte);
            every_string(list, alphabet, depth - 1, sink);
            list.pop();
        }
    }
}

/// All strings of the bytes of `UTF8`, up to so many and to four, as the text of a block: alone, and
/// with an `a` on either side.
pub fn texts(depth: usize, sink: &mut dyn FnMut(&Records)) {
    every_string(&mut Vec::new(), &UTF8, depth.min(4), &mut |text| {
        for (front, back) in [("", ""), ("a", ""), ("", "a")] {
            let text = [front.as_bytes(), text, back.as_bytes()].concat();
            let mut records = Records::default();
            records.push(&FRESH.map(|word| word as u32), &text);
            sink(&records);
        }
    });
}

/// Each word of the telling and of the indented records made each of `WORDS`, and the words ended
/// before it; each of their texts cut short.
pub fn every_word(sink: &mut dyn FnMut(&Records)) {
    let indented = indented().into_iter().map(|(records, _)| records);
    for good in telling().into_iter().chain(indented) {
        for place in 0..good.blocks.len() {
            let mut records = good.clone();
            for word in WORDS {
                records.blocks[place] = word;
                sink(&records);
            }
            records.blocks.truncate(place);
            sink(&records);
        }
        for end in 0..good.text.len() {
            sink(&Records { text: good.text[..end].to_vec(), ..good.clone() });
        }
    }
}
