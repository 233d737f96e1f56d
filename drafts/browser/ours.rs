//! Our static library, or the models of compare/ in its place. A reading is told by its number.

/// Blocks and text, or a refusal's number.
pub type Read = Result<(Vec<u32>, Vec<u8>), u32>;
/// A fragment, or a refusal's number.
pub type Html = Result<Vec<u8>, u32>;

#[cfg(archive)]
pub use by_library::{html, read, NAME};
#[cfg(not(archive))]
pub use by_models::{html, read, NAME};

#[cfg(archive)]
mod by_library {
    use super::{Html, Read};

    pub const NAME: &str = "our library";
    /// Rooms that hold whatever a letter has (host/elduvarn.h).
    const LONGEST: usize = 65_536;
    const MOST: [usize; 5] = [8 * LONGEST, 3 * 256, 256, 16 * LONGEST, LONGEST + LONGEST / 2];

    pub fn read(letter: &[u8], reading: usize) -> Read {
        let [a, b, c, d, text] = MOST;
        let mut words = [a, b, c, d].map(|size| vec![0; size]);
        let mut text = vec![0; text];
        let slices =
            library::Slices { words: words.each_mut().map(Vec::as_mut_slice), text: &mut text };
        let numbers = match reading {
            0 => library::read_plain(letter, slices),
            1 => library::read_paragraphs(letter, slices),
            _ => library::read_standard(letter, slices),
        };
        let [0, _, _, _, _, blocks, bytes] = numbers else {
            return Err(numbers[0]);
        };
        text.truncate(bytes as usize);
        Ok((words[3][..16 * blocks as usize].to_vec(), text))
    }

    pub fn html(blocks: &[u32], text: &[u8]) -> Html {
        // A span and all its marks, and at most six bytes for one of text.
        let mut room = vec![0; blocks.len() / 16 * 64 + 6 * text.len()];
        let [refusal, bytes] = library::html(blocks, text, &mut room);
        room.truncate(bytes as usize);
        if refusal == 0 {
            Ok(room)
        } else {
            Err(refusal as u32)
        }
    }
}

#[cfg(not(archive))]
mod by_models {
    use super::{Html, Read};
    use model::{Kind, BLOCK_WORDS, TOKEN_WORDS};

    pub const NAME: &str = "the model in place of our library";

    pub fn read(letter: &[u8], reading: usize) -> Read {
        let kind = [Kind::Plain, Kind::Paragraphs, Kind::Standard][reading];
        let most = letter.len().max(256);
        let rooms = [TOKEN_WORDS * most, 3 * most, most, BLOCK_WORDS * most, 2 * most];
        let (answer, _) = model::read(letter, kind, &rooms);
        match answer.refusal.number {
            0 => Ok((answer.blocks.concat(), answer.text)),
            refusal => Err(refusal),
        }
    }

    pub fn html(blocks: &[u32], text: &[u8]) -> Html {
        rule::Rule::right().told(blocks, text, usize::MAX)
    }
}
