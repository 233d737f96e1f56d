//! Rooms that are lent again and again, and what our reader leaves in them.

use common::cut::are_told;
use common::whole::Document;
use library::Slices;
use model::{Numbers, TEXT, TOKEN_WORDS, WIDTHS};

/// Sizes in records, and in bytes of text.
pub type Sizes = [usize; 5];

pub struct Lent {
    words: [Vec<u32>; 4],
    text: Vec<u8>,
}

impl Lent {
    pub fn new(sizes: &Sizes) -> Self {
        let words = [0, 1, 2, 3].map(|room| vec![0; sizes[room] * WIDTHS[room]]);
        Lent { words, text: vec![0; sizes[TEXT]] }
    }

    /// Our plain reading.
    pub fn read(&mut self, letter: &[u8]) -> Numbers {
        let [tokens, fonts, colours, blocks] = &mut self.words;
        let words = [tokens, fonts, colours, blocks].map(Vec::as_mut_slice);
        library::read_plain(letter, Slices { words, text: &mut self.text })
    }

    /// Our standard reading.
    pub fn read_standard(&mut self, letter: &[u8]) -> Numbers {
        let [tokens, fonts, colours, blocks] = &mut self.words;
        let words = [tokens, fonts, colours, blocks].map(Vec::as_mut_slice);
        library::read_standard(letter, Slices { words, text: &mut self.text })
    }

    /// Rooms of just enough for the standard reading of a letter; none if it is refused.
    pub fn for_standard(letter: &[u8]) -> Option<Self> {
        let bytes = letter.len();
        let ample = [bytes, 256, 256, bytes, bytes * 3 / 2];
        let [0, 0, counts @ ..] = Lent::new(&ample).read_standard(letter) else {
            return None;
        };
        Some(Lent::new(&counts.map(|count| count as usize)))
    }

    /// Whether our reading of the letter is the crate's, word by word: all that the crate tells.
    pub fn reads_as(&mut self, letter: &[u8], document: &Document) -> bool {
        let numbers = self.read(letter).map(|number| number as usize);
        let [0, 0, counts @ ..] = numbers else {
            return false;
        };
        let [tokens, fonts, colours, blocks] = self.words.each_ref().map(Vec::as_slice);
        let names = fonts.as_chunks().0.iter().take(counts[1]).map(|[key, place, length]| {
            (*key, letter[*place as usize..][..*length as usize].to_vec())
        });
        counts == needed(document)
            && are_told(&document.tokens, &tokens.as_chunks::<TOKEN_WORDS>().0[..counts[0]])
            && names.eq(document.fonts.iter().cloned())
            && colours.starts_with(&document.colours)
            && blocks.as_chunks().0.starts_with(&document.blocks)
            && self.text.starts_with(&document.text)
    }
}

/// Just enough.
pub fn needed(document: &Document) -> Sizes {
    let Document { tokens, fonts, colours, blocks, text } = document;
    [tokens.len(), fonts.len(), colours.len(), blocks.len(), text.len()]
}
