//! Listed lists and records, and how a list is put together: once more from 01, so that what is made
//! here need not be taken on the codec's word.

use crate::call::{Asked, Records};
use codec::{BLOCK_WORDS, LENGTH, PLACE, STORED_WORDS, STYLE_WORDS};

pub type Sink<'a> = dyn FnMut(&[u8]) + 'a;

/// Bytes that mean something as a number, as a group that goes on, or as text.
pub const ALPHABET: [u8; 10] = [0, 1, 2, 12, 97, 127, 128, 129, 195, 255];

/// Both ends of each class of bytes in the grammar of UTF-8 (RFC 3629, section 4).
const UTF8: [u8; 24] = [
    0x00, 0x7F, 0x80, 0x8F, 0x90, 0x9F, 0xA0, 0xBF, 0xC0, 0xC1, 0xC2, 0xDF, 0xE0, 0xE1, 0xEC, 0xED,
    0xEE, 0xEF, 0xF0, 0xF1, 0xF3, 0xF4, 0xF5, 0xFF,
];

/// Numbers well and badly put, around the limits of the fields and of the groups.
const PUT: [&[u8]; 34] = [
    &[],
    &[0],
    &[1],
    &[2],
    &[3],
    &[4],
    &[127],
    &[128],
    &[128, 0],
    &[128, 1],
    &[255, 0],
    &[255, 1],
    &[255, 127],
    &[128, 128],
    &[128, 128, 0],
    &[128, 128, 1],
    &[255, 255, 3],
    &[128, 128, 4],
    &[255, 255, 255],
    &[255, 255, 127],
    &[128, 128, 128, 1],
    &[255, 255, 255, 127],
    &[128, 128, 128, 128],
    &[128, 128, 128, 128, 0],
    &[128, 128, 128, 128, 1],
    &[255, 255, 255, 255, 7],
    &[128, 128, 128, 128, 8],
    &[254, 255, 255, 255, 15],
    &[255, 255, 255, 255, 15],
    &[128, 128, 128, 128, 16],
    &[255, 255, 255, 255, 127],
    &[255, 255, 255, 255, 255],
    &[128, 128, 128, 128, 128, 0],
    &[129, 128, 128, 128, 128, 1],
];

/// Words of a record around the limits of the fields.
pub const WORDS: [u32; 18] = [
    0,
    1,
    2,
    3,
    4,
    13,
    126,
    127,
    128,
    65_534,
    65_535,
    65_536,
    2_147_483_646,
    2_147_483_647,
    2_147_483_648,
    2_147_483_649,
    4_294_967_294,
    4_294_967_295,
];

type Style = [i32; STYLE_WORDS];
const FRESH: Style = [0, 0, 12, 0, 0, 0, 0, 0, 0, 0, 0, 0, 0, 0];
const BOLD: Style = [0, 0, 12, 1, 0, 0, 0, 0, 0, 0, 0, 0, 0, 0];

/// The list of one block `a`.
const ONE: [u8; 14] = [1, 0, 0, 12, 0, 0, 0, 0, 0, 0, 0, 0, 1, b'a'];

/// That list with other bytes in place of one.
fn with(place: usize, bytes: &[u8]) -> Vec<u8> {
    [&ONE[..place], bytes, &ONE[(place + 1).min(ONE.len())..]].concat()
}

/// Lists whole and damaged, with the refusals that 01 gives in ample rooms.
pub fn known() -> Vec<(Vec<u8>, u32)> {
    let mut twice = [&ONE[..], &ONE[1..]].concat();
    twice[0] = 2;
    vec![
        (ONE.to_vec(), 0),
        (vec![0], 0),
        (vec![], 22),
        (vec![128], 22),
        (vec![128; 4], 22),
        (vec![128; 5], 21),
        (vec![128, 0], 21),
        (vec![255, 255, 255, 255, 16], 21),
        (vec![255, 255, 255, 255, 15], 22),
        (vec![0, 0], 23),
        (ONE[..13].to_vec(), 22),
        (with(14, b"b"), 23),
        (with(1, &[255, 255, 3]), 0),
        (with(1, &[128, 128, 4]), 24),
        (with(3, &[128, 128, 4]), 24),
        (with(4, &[127]), 0),
        (with(4, &[128, 1]), 24),
        (with(5, &[4]), 24),
        (with(6, &[255, 255, 255, 255, 15]), 0),
        (with(8, &[2]), 24),
        (with(9, &[1]), 24),
        (with(12, &[0]), 24),
        (with(12, &[0, 128, 0]), 24),
        (with(12, &[2]), 22),
        (with(13, &[0xFF]), 24),
        (with(13, &[0xC3]), 24),
        (twice, 24),
        (vec![1; 13], 22),
        ([vec![1], vec![0; 12]].concat(), 24),
    ]
}

/// The same in rooms of words and bytes that decide.
pub fn known_in_rooms() -> Vec<(Asked, u32)> {
    let read = |list: Vec<u8>, rooms, refusal| (Asked::Read(list, rooms), refusal);
    let second_damaged = [with(0, &[2]), vec![128, 0]].concat();
    let one = || telling().swap_remove(1);
    let mut empty = one();
    empty.blocks[LENGTH] = 0;
    vec![
        read(ONE.to_vec(), [BLOCK_WORDS, 1], 0),
        read(ONE.to_vec(), [BLOCK_WORDS - 1, 1], 19),
        read(ONE.to_vec(), [0, 0], 19),
        read(ONE.to_vec(), [BLOCK_WORDS, 0], 20),
        read(with(12, &[2]), [0, 0], 22),
        read(with(13, &[255]), [0, 0], 24),
        read(with(14, &[0]), [0, 0], 19),
        read(with(14, &[0]), [BLOCK_WORDS, 0], 20),
        read(second_damaged.clone(), [0, 0], 19),
        read(second_damaged, [BLOCK_WORDS, 1], 21),
        (Asked::Write(one(), 14), 0),
        (Asked::Write(one(), 13), 25),
        (Asked::Write(empty, 0), 24),
        (Asked::Write(Records::default(), 0), 25),
        (Asked::Write(Records::default(), 1), 0),
    ]
}

/// All strings of at most `depth` bytes of the alphabet behind each start: nothing, a block up to
/// its last words, and a whole block of two with a second up to there.
pub fn every_end(depth: usize, sink: &mut Sink) {
    const STARTS: [&[u8]; 5] = [
        &[],
        &[1, 0, 0, 12, 0, 0, 0, 0],
        &[1, 0, 0, 12, 0, 0, 0, 0, 0, 0, 0, 0],
        &[1, 0, 0, 12, 0, 0, 0, 0, 1, 1, 0, 0, 2],
        &[2, 0, 0, 12, 0, 0, 0, 0, 0, 0, 0, 0, 1, 97, 0, 0, 12, 0, 0, 0, 0, 0, 0, 0],
    ];
    for start in STARTS {
        every_string(&mut start.to_vec(), &ALPHABET, depth, sink);
    }
}

fn every_string(list: &mut Vec<u8>, alphabet: &[u8], depth: usize, sink: &mut Sink) {
    sink(list);
    if depth > 0 {
        for byte in alphabet {
            list.push(*byte);
            every_string(list, alphabet, depth - 1, sink);
            list.pop();
        }
    }
}

/// A block whose text is one of all short strings of the bytes of `UTF8`, and `a` on either side.
pub fn texts(depth: usize, sink: &mut Sink) {
    every_string(&mut Vec::new(), &UTF8, depth.min(4), &mut |text| {
        for (front, back) in [("", ""), ("a", ""), ("", "a")] {
            let text = [front.as_bytes(), text, back.as_bytes()].concat();
            let mut records = Records::default();
            records.push(&FRESH.map(|word| word as u32), &text);
            sink(&records.list());
        }
    });
}

/// Each number of the telling lists put in each way of `PUT`, the list going on and cut behind it.
pub fn numbers(sink: &mut Sink) {
    for records in telling() {
        let pieces = records.pieces();
        for place in 0..pieces.len() {
            for put in PUT {
                let front = [&pieces[..place].concat(), put].concat();
                sink(&front);
                sink(&[front, pieces[place + 1..].concat()].concat());
            }
        }
    }
}

/// Each byte in each place of the telling lists, put in and put over; each of their starts.
pub fn every_byte_everywhere(sink: &mut Sink) {
    for list in telling().iter().map(Records::list) {
        for (place, byte) in (0..=list.len()).flat_map(|p| (0..=255).map(move |b| (p, b))) {
            let mut put = list.clone();
            put.insert(place, byte);
            sink(&put);
            if place < list.len() {
                put.remove(place + 1);
                sink(&put);
            }
        }
        (0..list.len()).for_each(|end| sink(&list[..end]));
    }
}

/// Records that list each field at both its ends, and texts of characters of each length.
pub fn telling() -> Vec<Records> {
    const MIN: i32 = i32::MIN;
    const MAX: i32 = i32::MAX;
    let least = [0, 0, 0, 0, 0, MIN, MIN, 1, 0, MIN, MIN, 0, 0, 0];
    let most = [65_535, 65_535, 65_535, 127, 3, MAX, MAX, 1, MAX, MAX, MAX, 0, 0, 0];
    let minus = [300, 2, 24, 64, 2, -1, -64, 1, 240, -65, -8_193, 0, 0, 0];
    let (fresh, bold) = (FRESH, BOLD);
    let long = "The quick brown fox jumps over the lazy dog, and does so again. ".repeat(3);
    let all: [&[(Style, &str)]; 7] = [
        &[],
        &[(fresh, "a")],
        &[(fresh, "a"), (bold, "b"), (fresh, "c")],
        &[(least, "\u{7FF}"), (most, "\u{FFFF}\u{10FFFF}")],
        &[(minus, "\u{0}")],
        &[(most, "z"), (fresh, "\u{E9}a\u{2014}a\u{1F600}a")],
        &[(fresh, &long), (bold, &long[..128])],
    ];
    all.map(Records::of).into()
}

/// Records with indents, and the refusals that A5 gives them, in whatever room.
pub fn indented() -> Vec<(Records, u32)> {
    let [left, right, first] = [[7, 0, 0], [0, -1, 0], [0, 0, i32::MIN]].map(|indents| {
        let mut style = FRESH;
        style[STORED_WORDS..].copy_from_slice(&indents);
        style
    });
    let mut faulty = BOLD;
    faulty[0] = 65_536;
    let all: [(&[(Style, &str)], u32); 12] = [
        (&[(left, "a")], 26),
        (&[(right, "a")], 26),
        (&[(first, "a")], 26),
        (&[(FRESH, "a"), (BOLD, "b"), (right, "c")], 26),
        // Neighbours that differ in an indent alone have two styles.
        (&[(FRESH, "a"), (left, "b"), (FRESH, "c")], 26),
        (&[(left, "a"), (right, "b"), (first, "c")], 26),
        (&[(left, "a"), (left, "b")], 24),
        // A fault behind the indent, or in front of it.
        (&[(left, "a"), (faulty, "b")], 24),
        (&[(left, "a"), (BOLD, "")], 24),
        (&[(left, "a"), (FRESH, "b"), (FRESH, "c")], 24),
        (&[(FRESH, "a"), (FRESH, "b"), (left, "c")], 24),
        (&[(faulty, "a"), (first, "b")], 24),
    ];
    let mut all = all.map(|(blocks, refusal)| (Records::of(blocks), refusal)).to_vec();
    // Words that are no whole block, and text behind the last one.
    let [mut longer, mut left_over] = [(); 2].map(|()| Records::of(&[(left, "a")]));
    longer.blocks.push(0);
    left_over.text.push(b'b');
    all.extend([longer, left_over].map(|records| (records, 24)));
    all
}

impl Records {
    fn of(blocks: &[(Style, &str)]) -> Self {
        let mut records = Records::default();
        for (style, text) in blocks {
            records.push(&style.map(|word| word as u32), text.as_bytes());
        }
        records
    }

    pub fn push(&mut self, style: &[u32; STYLE_WORDS], text: &[u8]) {
        self.blocks.extend_from_slice(style);
        self.blocks.extend([self.text.len() as u32, text.len() as u32]);
        self.text.extend_from_slice(text);
    }

    pub fn has_indent(&self) -> bool {
        let mut records = self.blocks.chunks_exact(BLOCK_WORDS);
        records.any(|record| record[STORED_WORDS..STYLE_WORDS].iter().any(|word| *word != 0))
    }

    /// The list, for good records.
    pub fn list(&self) -> Vec<u8> {
        self.pieces().concat()
    }

    /// The list's numbers and texts, each for itself.
    fn pieces(&self) -> Vec<Vec<u8>> {
        let records = self.blocks.chunks_exact(BLOCK_WORDS);
        let mut pieces = vec![number(records.len() as u64)];
        for record in records {
            for (place, word) in record[..STORED_WORDS].iter().enumerate() {
                let signed = i64::from(*word as i32);
                let folded = if signed < 0 { -2 * signed - 1 } else { 2 * signed };
                let is_folded = matches!(place, 5 | 6 | 9 | 10);
                pieces.push(number(if is_folded { folded as u64 } else { u64::from(*word) }));
            }
            let [place, length] = [record[PLACE], record[LENGTH]];
            pieces.push(number(u64::from(length)));
            pieces.push(self.text[place as usize..][..length as usize].to_vec());
        }
        pieces
    }
}

pub fn number(value: u64) -> Vec<u8> {
    if value < 128 {
        return vec![value as u8];
    }
    [vec![(value % 128 + 128) as u8], number(value / 128)].concat()
}
