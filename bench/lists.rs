//! Stored lists to be timed.

use codec::{STORED_WORDS, STYLE_WORDS};
use common::random::Random;

const WORDS: [&str; 12] = [
    "the ", "parcel ", "and ", "a ", "letter ", "of ", "Friday ", "will ", "be ", "found. ",
    "Lyon, ", "you ",
];
const OTHERS: [&str; 6] =
    ["caf\u{E9} ", "\u{2014} ", "\u{201C}so\u{201D} ", "na\u{EF}ve ", "\u{1F600}", "\u{A0}"];

/// A kind of list: words of text in a block, and how seldom a word is not ASCII.
pub struct Kind {
    pub name: &'static str,
    pub blocks: usize,
    words: [usize; 2],
    other_once_in: Option<usize>,
}

pub const KINDS: [Kind; 5] = [
    Kind { name: "short, ASCII", blocks: 4_000, words: [1, 4], other_once_in: None },
    Kind { name: "short, mixed", blocks: 4_000, words: [1, 4], other_once_in: Some(8) },
    Kind { name: "long, ASCII", blocks: 3_000, words: [20, 120], other_once_in: None },
    Kind { name: "long, mixed", blocks: 3_000, words: [20, 120], other_once_in: Some(20) },
    Kind { name: "a single block", blocks: 1, words: [20, 20], other_once_in: Some(20) },
];

/// Some with numbers of two groups.
const STYLES: [[u32; STORED_WORDS]; 5] = [
    [0, 0, 24, 0, 0, 0, 0, 0, 0, 0, 0],
    [0, 0, 24, 1, 0, 0, 0, 0, 0, 0, 0],
    [2, 1, 20, 2, 0, 0, 0, 0, 0, 0, 0],
    [0, 0, 24, 0, 3, 120, 120, 1, 276, 1, 0],
    [1, 0, 36, 5, 2, 240, 60, 0, 0, 0, 720],
];

impl Kind {
    /// Blocks as an ordinary letter has them: few styles, each unlike the one before.
    pub fn list(&self) -> Vec<u8> {
        let mut random = Random::new(1);
        let (mut blocks, mut text) = (Vec::new(), Vec::new());
        let mut style = 0;
        for _ in 0..self.blocks {
            style = (style + random.between(1, STYLES.len() - 1)) % STYLES.len();
            let words = self.text(&mut random);
            blocks.extend_from_slice(&STYLES[style]);
            // A list holds no indents.
            blocks.extend([0; STYLE_WORDS - STORED_WORDS]);
            blocks.extend([text.len() as u32, words.len() as u32]);
            text.extend_from_slice(words.as_bytes());
        }
        // More than any style's numbers take.
        let mut list = vec![0; 5 + 4 * blocks.len() + text.len()];
        let bytes = codec::write(&blocks, &text, &mut list).expect("good records");
        list.truncate(bytes);
        list
    }

    fn text(&self, random: &mut Random) -> String {
        let words = random.between(self.words[0], self.words[1]);
        (0..words)
            .map(|_| match self.other_once_in {
                Some(times) if random.once_in(times) => *random.pick(&OTHERS),
                _ => *random.pick(&WORDS),
            })
            .collect()
    }
}
