//! Block lists that are listed rather than drawn: each function hands its lists to a sink.

use codec::{BLOCK_WORDS, LENGTH, PLACE, STYLE_WORDS};
use records::listed::FRESH;
use records::Records;
use rule::FLAGS;

pub type Sink<'a> = dyn FnMut(Records) + 'a;

/// What is escaped, what is refused and what stands beside it, and characters of one and two bytes.
pub const CHARACTERS: [char; 11] =
    ['&', '<', '>', '"', '\n', '\t', '\r', '\x1f', '\x7f', 'a', '\u{e9}'];
pub const ALL_FLAGS: u32 = 127;

/// A fresh style with these flags.
pub fn marked(flags: u32) -> [u32; STYLE_WORDS] {
    let mut style = FRESH.map(|word| word as u32);
    style[FLAGS] = flags;
    style
}

/// Blocks of these flags and texts.
pub fn flagged(blocks: &[(u32, &str)]) -> Records {
    let mut records = Records::default();
    blocks.iter().for_each(|(flags, text)| records.push(&marked(*flags), text.as_bytes()));
    records
}

/// All texts of so many of `CHARACTERS`.
pub fn every_text(length: usize, sink: &mut dyn FnMut(&str)) {
    let base = CHARACTERS.len();
    for number in 0..base.pow(length as u32) {
        let digits = (0..length as u32).map(|digit| number / base.pow(digit) % base);
        sink(&digits.map(|digit| CHARACTERS[digit]).collect::<String>());
    }
}

/// All lists of up to three blocks with these flags and texts; many have two neighbours of one style,
/// or a block without text.
pub fn several(sink: &mut Sink) {
    const MARKED: [u32; 8] = [0, 1, 2, 4, 24, 32, 64, 127];
    const TEXTS: [&str; 7] = ["", "a", "&", "<b>", "\n", "\u{e9}\"", "\r"];
    let each: Vec<(u32, &str)> =
        MARKED.iter().flat_map(|flags| TEXTS.iter().map(move |text| (*flags, *text))).collect();
    for one in &each {
        for two in &each {
            sink(flagged(&[*one, *two]));
            each.iter().for_each(|three| sink(flagged(&[*one, *two, *three])));
        }
    }
}

/// Each byte put in and put over in each place of the texts of two blocks; so, and with each rule of
/// the stored form broken besides.
pub fn every_byte(sink: &mut Sink) {
    let texts = ["a&\u{e9}", "\n\tb"];
    let [one, two] = texts.map(str::as_bytes);
    let all = texts.concat();
    for (place, byte) in (0..=all.len()).flat_map(|place| (0..=255).map(move |byte| (place, byte)))
    {
        let mut put_in = all.clone().into_bytes();
        put_in.insert(place, byte);
        let mut put_over = all.clone().into_bytes();
        put_over.splice(place..(place + 1).min(all.len()), [byte]);
        for text in [put_in, put_over] {
            // The byte goes to the first block, or to the second.
            for first in [one.len(), (text.len() - two.len()).max(1)] {
                let mut records = Records::default();
                records.push(&marked(1), &text[..first]);
                records.push(&marked(2), &text[first..]);
                broken(&records, sink);
                sink(records);
            }
        }
    }
}

/// The same records with each rule broken.
fn broken(records: &Records, sink: &mut Sink) {
    const TWO: usize = BLOCK_WORDS;
    type Break = fn(&mut Records);
    const BREAKS: [Break; 18] = [
        |records| records.blocks.push(0),
        |records| _ = records.blocks.pop(),
        |records| records.blocks.truncate(TWO),
        |records| records.blocks.clear(),
        |records| records.text.push(b'c'),
        |records| _ = records.text.pop(),
        |records| records.blocks[0] = 65_536,
        |records| records.blocks[TWO + 1] = 65_536,
        |records| records.blocks[2] = u32::MAX,
        |records| records.blocks[TWO + FLAGS] = ALL_FLAGS + 1,
        |records| records.blocks[4] = 4,
        |records| records.blocks[TWO + 7] = 2,
        |records| records.blocks[8] = 1,
        |records| [records.blocks[7], records.blocks[8]] = [1, 1 << 31],
        |records| records.blocks[TWO + FLAGS] = 1,
        |records| records.blocks[TWO + PLACE] -= 1,
        |records| records.blocks[LENGTH] = 0,
        |records| records.blocks[TWO + LENGTH] |= 1 << 31,
    ];
    for fault in BREAKS {
        let mut records = records.clone();
        fault(&mut records);
        sink(records);
    }
}

/// Up to 300,000 bytes of each sort of character in one block; the last one another, or refused.
pub fn long(sink: &mut Sink) {
    for size in [255, 256, 65_535, 65_536, 300_000] {
        for unit in ["x", "&", "<", ">", "\"", "\n", "\t", "\u{e9}", "\u{1f600}", "ab &c\u{e9}\n"] {
            let many = unit.repeat(size / unit.len());
            for back in ["", "z", "&", "\n", "\r"] {
                sink(flagged(&[(ALL_FLAGS, &format!("{many}{back}"))]));
            }
        }
    }
}

/// Many short blocks, the last one good, without text or refused.
pub fn many(sink: &mut Sink) {
    for count in [127, 128, 1_000, 65_536] {
        for last in ["a", "&", "", "\r"] {
            let mut records = Records::default();
            let texts = ["b", "<", "\n", "\u{2014}", "&\""];
            for number in 0..count {
                let text = if number + 1 == count { last } else { texts[number % texts.len()] };
                records.push(&marked(number as u32 % (ALL_FLAGS + 1)), text.as_bytes());
            }
            sink(records);
        }
    }
}
