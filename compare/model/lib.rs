//! A model of the three readings, written from document 01, requests A1, A2, A4 and A5 and the
//! mended rules of docs/DIFFERENCES.md. It knows neither the crate nor our library, and takes the
//! shortest way that a rule allows: it judges what the crate has no answer for, as are slices,
//! refusals' places, indents and all of standard reading.
//!
//!   cut      tokens
//!   header   the walk and the tables
//!   body     states and blocks
//!   units    what a run of `u` adds
//!   standard, standard_body   tokens and body by A1; samples, answers that are known beforehand

mod body;
mod cut;
mod header;
pub mod samples;
mod standard;
mod standard_body;
mod units;

pub use cut::NAMES;
pub use standard::SYMBOL;

use std::ops::Range;

/// 01's six words, then place and length of the slice that the token was cut from.
pub const TOKEN_WORDS: usize = 8;
pub type Token = [u32; TOKEN_WORDS];
/// The word that has the place of the slice.
const SLICE: usize = 6;
/// Key, place and length of the name.
pub type Font = [u32; 3];
/// 01's eleven words of a style, then the indents left, right and first line.
pub const STYLE_WORDS: usize = 14;
pub const INDENTS: Range<usize> = 11..STYLE_WORDS;
/// Place and length of the text stand behind the style.
pub const PLACE: usize = STYLE_WORDS;
pub const LENGTH: usize = STYLE_WORDS + 1;
pub const BLOCK_WORDS: usize = STYLE_WORDS + 2;
pub type Block = [u32; BLOCK_WORDS];

#[derive(Debug, Clone, Copy, PartialEq, Eq)]
pub enum Kind {
    Plain,
    Paragraphs,
    Standard,
}

/// The readings that the crate can be asked for.
pub const KINDS: [Kind; 2] = [Kind::Plain, Kind::Paragraphs];

/// The rooms in the order in which they are lent, by their places in `Rooms`.
pub const TOKENS: usize = 0;
pub const FONTS: usize = 1;
pub const COLOURS: usize = 2;
pub const BLOCKS: usize = 3;
pub const TEXT: usize = 4;
pub const ROOM_NAMES: [&str; 5] = ["token", "font", "colour", "block", "text"];
/// Elements of a record: words, and bytes of the text.
pub const WIDTHS: [usize; 5] = [TOKEN_WORDS, 3, 1, BLOCK_WORDS, 1];

/// Elements lent, record or not.
pub type Rooms = [usize; 5];
/// Records that the extractor's rooms hold.
pub const EXTRACTOR: [usize; 5] = [1_024, 256, 256, 128, 8_192];

/// A refusal's number, and the place of the slice that caused it or that its token was cut from; 0
/// for a number that has none.
#[derive(Debug, Clone, Copy, Default, PartialEq, Eq)]
pub struct Refusal {
    pub number: u32,
    pub place: u32,
}

/// The tokens of a letter.
pub type Cut = Result<Vec<Token>, Refusal>;

/// Refusal number, place and the five counts.
pub type Numbers = [u32; 7];

/// The answer; nothing but the refusal if its number is not 0.
#[derive(Debug, Clone, Default, PartialEq, Eq)]
pub struct Answer {
    pub refusal: Refusal,
    pub tokens: Vec<Token>,
    pub fonts: Vec<Font>,
    pub colours: Vec<u32>,
    pub blocks: Vec<Block>,
    pub text: Vec<u8>,
}

/// What was met that stands outside the equality with the crate, refusals aside; and what standard
/// reading came by, so that a run that tested little shows.
#[derive(Debug, Clone, Copy, Default, PartialEq, Eq)]
pub struct Met {
    pub negative_skip: bool,
    /// Above 65,535, where the crate asks for more memory than it may get.
    pub large_skip: bool,
    pub ill_formed: bool,
    /// Standard reading: a token passed over, a text passed over in part, skipping that a brace
    /// ended, two units that pair.
    pub skipped: bool,
    pub in_part: bool,
    pub ended: bool,
    pub paired: bool,
}

impl Refusal {
    /// One that has no place.
    pub fn nowhere(number: u32) -> Self {
        Refusal { number, place: 0 }
    }

    /// One that a token met.
    fn at(number: u32, token: &Token) -> Self {
        Refusal { number, place: token[SLICE] }
    }
}

impl Answer {
    pub fn numbers(&self) -> Numbers {
        let Refusal { number, place } = self.refusal;
        let [tokens, fonts, colours, blocks, text] = self.counts().map(|count| count as u32);
        [number, place, tokens, fonts, colours, blocks, text]
    }

    pub fn counts(&self) -> [usize; 5] {
        [
            self.tokens.len(),
            self.fonts.len(),
            self.colours.len(),
            self.blocks.len(),
            self.text.len(),
        ]
    }

    /// What the word rooms hold in front of their zeros.
    pub fn words(&self) -> [&[u32]; 4] {
        [
            self.tokens.as_flattened(),
            self.fonts.as_flattened(),
            &self.colours,
            self.blocks.as_flattened(),
        ]
    }
}

/// Cuts a source of any length and bytes, in a room that holds everything.
pub fn cut(source: &[u8], kind: Kind) -> Cut {
    match kind {
        Kind::Standard => standard::tokens(source),
        Kind::Plain | Kind::Paragraphs => cut::tokens(source, kind),
    }
}

/// What a token room of so many words shows of a cutting.
pub fn in_room(cut: &Cut, words: usize) -> Result<&[Token], Refusal> {
    match cut {
        Err(refusal) => Err(*refusal),
        Ok(tokens) if tokens.len() > words / TOKEN_WORDS => Err(Refusal::nowhere(7)),
        Ok(tokens) => Ok(tokens),
    }
}

/// Reads a source of any length and bytes in rooms of any sizes.
pub fn read(source: &[u8], kind: Kind, rooms: &Rooms) -> (Answer, Met) {
    let mut met = Met::default();
    let answer = match answer(source, kind, rooms, &mut met) {
        Ok(answer) => answer,
        Err(refusal) => Answer { refusal, ..Answer::default() },
    };
    (answer, met)
}

fn answer(source: &[u8], kind: Kind, rooms: &Rooms, met: &mut Met) -> Result<Answer, Refusal> {
    let cut = cut(source, kind);
    let tokens = in_room(&cut, rooms[TOKENS])?;
    let first = tokens.first().ok_or(Refusal::nowhere(8))?;
    if first[0] != cut::OPEN {
        return Err(Refusal::at(9, first));
    }
    let header = header::walk(source, tokens, rooms)?;
    let body = match kind {
        Kind::Standard => standard_body::read(source, tokens, &header.passed, rooms, met)?,
        _ => body::Body::read(source, tokens, &header.passed, kind, rooms, met)?,
    };
    let fonts = header.fonts.iter().map(|(key, [place, length])| [*key, *place, *length]).collect();
    Ok(Answer {
        refusal: Refusal::default(),
        tokens: tokens.to_vec(),
        fonts,
        colours: header.colours,
        blocks: body.blocks,
        text: body.text,
    })
}
