//! Elduvarn for hosts in Rust: RTF letters are cut and read, lists of blocks are stored.
//!
//! The exported functions of `host/elduvarn.h` over slices. The caller lends the rooms, nothing is
//! allocated, and an answer is what stands in them. A refusal is an error, that of a letter with
//! its place, and leaves every room zero. Behind what an answer counts, rooms are zero too. What
//! was in a room is never read.
//!
//! Link the archive that `rt lib` in `crates/host` writes, `crates/host/out/libhost.a`. The archive
//! is proved, this file is not. See `host/README.md`.

#![warn(missing_docs)]

use std::error::Error;
use std::fmt;
use std::str::{from_utf8, Utf8Error};

/// Words of a token's record.
pub const TOKEN_WORDS: usize = 8;
/// Words of a font's record.
pub const FONT_WORDS: usize = 3;
/// Words of a block's record.
pub const BLOCK_WORDS: usize = 16;

/// No longer source is read.
pub const MOST_SOURCE: usize = 65_536;
/// No more fonts are read.
pub const MOST_FONTS: usize = 256;
/// No more colours are read.
pub const MOST_COLOURS: usize = 256;
/// No letter has more bytes of text.
pub const MOST_TEXT: usize = 98_304;

/// Kind (0 text, 1 open, 2 close, 3 line break, 4 ignorable, 5 word, 6 symbol), word number, 1 if a
/// number is present, that number modulo 2^32, source place and length (of a text or an unknown
/// word), source place and length of the slice that the token was cut from.
///
/// Kind 6 is of [`Reading::Standard`] alone: the byte behind the backslash stands in place of the
/// word number. `\'hh` is byte 39 with a number, the byte that `hh` says; no other symbol has one.
pub type Token = [u32; TOKEN_WORDS];

/// Key, source place and length of the name.
pub type Font = [u32; FONT_WORDS];

/// Red * 65536 + green * 256 + blue.
pub type Colour = u32;

/// Each word a signed one modulo 2^32: colour, font, size, flags (1 bold, 2 italic, 4 underline,
/// 8 super, 16 sub, 32 small capitals, 64 strike), alignment (0 left, 1 right, 2 centre,
/// 3 justified), before, after, line kind (0 automatic, 1 value), line value, multiplier, tab, left,
/// right and first line indent, text place, text length.
pub type Block = [u32; BLOCK_WORDS];

/// Declares the refusals, each said once.
macro_rules! refusals {
    ($($(#[$condition:meta])* $name:ident = $number:literal,)*) => {
        /// Why a letter or a list is refused: docs/REFUSALS.md, by number and name.
        #[repr(u32)]
        #[derive(Clone, Copy, Debug, PartialEq, Eq, Hash)]
        pub enum Refusal {
            $($(#[$condition])* $name = $number,)*
        }

        impl Refusal {
            /// Every refusal, in the order of numbers.
            pub const ALL: &'static [Refusal] = &[$(Refusal::$name,)*];

            /// The refusal of that number; none for 0, which is success, and for other numbers.
            pub const fn from_number(number: u32) -> Option<Refusal> {
                match number {
                    $($number => Some(Refusal::$name),)*
                    _ => None,
                }
            }

            /// The name in docs/REFUSALS.md.
            pub const fn name(self) -> &'static str {
                match self {
                    $(Refusal::$name => stringify!($name),)*
                }
            }
        }
    };
}

refusals! {
    /// The source is over 65,536 bytes.
    SourceTooLong = 1,
    /// A byte is above 127.
    NotAscii = 2,
    /// `\'` with fewer than two bytes left in its slice.
    HexShort = 3,
    /// Those two bytes are no number.
    HexBad = 4,
    /// A word's number is no 32-bit signed decimal.
    NumberBad = 5,
    /// The last slice is not `}` alone; in standard reading: the last token is no closing bracket.
    LastSlice = 6,
    /// There are more tokens than the room holds.
    TokenRoom = 7,
    /// The source is blank.
    NoTokens = 8,
    /// The first token is no opening bracket.
    FirstToken = 9,
    /// Line breaks stand between a bracket and its table's word.
    TableLineBreak = 10,
    /// `\f` without a number in a font table.
    FontNumber = 11,
    /// A number does not fit its field.
    NumberField = 12,
    /// `\*` in the body.
    IgnorableInBody = 13,
    /// A bracket closed, a word, symbol or text with no state left.
    NoState = 14,
    /// `\sl-2147483648` in the body.
    LineSpacing = 15,
    /// An opening bracket with 64 states held.
    TooDeep = 16,
    /// A font beyond 256 or the room.
    FontRoom = 17,
    /// A colour beyond 256 or the room.
    ColourRoom = 18,
    /// A block beyond the room.
    BlockRoom = 19,
    /// Text beyond the room, or beyond 2,147,483,647 bytes.
    TextRoom = 20,
    /// A stored number has a sixth group, is not shortest, or is above 4,294,967,295.
    StoredNumber = 21,
    /// The stored list ends early.
    StoredShort = 22,
    /// The stored list has bytes left over.
    StoredLong = 23,
    /// A stored field or block breaks a rule.
    StoredField = 24,
    /// The stored list does not fit its room.
    OutputRoom = 25,
    /// A block has an indent, which a stored list cannot hold.
    IndentNotZero = 26,
}

impl Refusal {
    /// The number in docs/REFUSALS.md, 1 to 26.
    pub const fn number(self) -> u32 {
        self as u32
    }

    /// Whether it carries a place: 3 to 6 and 9 to 16.
    pub const fn has_place(self) -> bool {
        matches!(self.number(), 3..=6 | 9..=16)
    }

    /// Success for 0. The archive is proved to give no number but 0 and those above; a later one,
    /// with a refusal more, ends the program here.
    fn told(number: u32) -> Result<(), Refusal> {
        match Refusal::from_number(number) {
            Some(refusal) => Err(refusal),
            None if number == 0 => Ok(()),
            None => panic!("elduvarn: refusal {number} of the archive is unknown to elduvarn.rs"),
        }
    }
}

impl fmt::Display for Refusal {
    fn fmt(&self, to: &mut fmt::Formatter<'_>) -> fmt::Result {
        write!(to, "refused by {}, {}", self.number(), self.name())
    }
}

impl Error for Refusal {}

/// A letter's refusal, and where it is.
#[derive(Clone, Copy, Debug, PartialEq, Eq, Hash)]
pub struct Refused {
    /// Why the letter is refused.
    pub refusal: Refusal,
    /// 3 to 6 and 9 to 16 carry the place of the slice; the others 0. It is the slice that is
    /// refused, or that the refused token was cut from; for 10, that of the table's word. A place
    /// counts the source's bytes from 0, white space in front too.
    ///
    /// A slice starts where the letter does, and at each `{`, `}`, `\` and line feed that has no
    /// `\` before it; by paragraphs, at no line feed that is directly behind the `\` and carriage
    /// return of a line break. In standard reading one starts at each `{`, `}`, `\`, carriage return
    /// and line feed, but not right behind the `\` that starts a slice, nor at a line feed right
    /// behind such a `\` and a carriage return. So the text behind a bracket belongs to the bracket's
    /// slice.
    pub place: usize,
}

impl Refused {
    /// Success for 0, as [`Refusal::told`] has it.
    fn told(number: u32, place: u32) -> Result<(), Refused> {
        Refusal::told(number).map_err(|refusal| Refused { refusal, place: place as usize })
    }
}

impl fmt::Display for Refused {
    fn fmt(&self, to: &mut fmt::Formatter<'_>) -> fmt::Result {
        self.refusal.fmt(to)?;
        if self.refusal.has_place() {
            write!(to, ", at byte {}", self.place)?;
        }
        Ok(())
    }
}

impl Error for Refused {}

/// What the archive exports, as `host/elduvarn.h` declares it. Each slice is a pointer, not null
/// and aligned, and a length; a room overlaps no other slice. Lengths and contents are free.
mod exported {
    #[repr(C)]
    pub struct CutAnswer {
        pub refusal: u32,
        pub place: u32,
        pub tokens: u32,
    }

    #[repr(C)]
    pub struct ReadAnswer {
        pub refusal: u32,
        pub place: u32,
        pub tokens: u32,
        pub fonts: u32,
        pub colours: u32,
        pub blocks: u32,
        pub text: u32,
    }

    #[repr(C)]
    pub struct StoredReadAnswer {
        pub refusal: u32,
        pub blocks: usize,
        pub text: usize,
    }

    #[repr(C)]
    pub struct StoredWriteAnswer {
        pub refusal: u32,
        pub bytes: usize,
    }

    #[rustfmt::skip]
    extern "C" {
        pub fn elduvarn_cut(
            source: *const u8, source_len: usize, reading: u32,
            tokens: *mut u32, tokens_len: usize,
        ) -> CutAnswer;
        pub fn elduvarn_read_plain(
            source: *const u8, source_len: usize, tokens: *mut u32, tokens_len: usize,
            fonts: *mut u32, fonts_len: usize, colours: *mut u32, colours_len: usize,
            blocks: *mut u32, blocks_len: usize, text: *mut u8, text_len: usize,
        ) -> ReadAnswer;
        pub fn elduvarn_read_paragraphs(
            source: *const u8, source_len: usize, tokens: *mut u32, tokens_len: usize,
            fonts: *mut u32, fonts_len: usize, colours: *mut u32, colours_len: usize,
            blocks: *mut u32, blocks_len: usize, text: *mut u8, text_len: usize,
        ) -> ReadAnswer;
        pub fn elduvarn_read_standard(
            source: *const u8, source_len: usize, tokens: *mut u32, tokens_len: usize,
            fonts: *mut u32, fonts_len: usize, colours: *mut u32, colours_len: usize,
            blocks: *mut u32, blocks_len: usize, text: *mut u8, text_len: usize,
        ) -> ReadAnswer;
        pub fn elduvarn_stored_check(list: *const u8, list_len: usize) -> u32;
        pub fn elduvarn_stored_read(
            list: *const u8, list_len: usize, blocks: *mut u32, blocks_len: usize,
            text: *mut u8, text_len: usize,
        ) -> StoredReadAnswer;
        pub fn elduvarn_stored_write(
            blocks: *const u32, blocks_len: usize, text: *const u8, text_len: usize,
            list: *mut u8, list_len: usize,
        ) -> StoredWriteAnswer;
    }
}

/// By which rules a letter is cut and read.
#[repr(u32)]
#[derive(Clone, Copy, Debug, PartialEq, Eq, Hash)]
pub enum Reading {
    /// As in the crate rtf-parser: a slice that starts with `\` and a carriage return is lost,
    /// `\par` adds nothing and indents stay 0.
    Plain = 0,
    /// A slice that starts with `\` and a carriage return is a line break, to which a line feed
    /// directly behind belongs, and text; each `\par` adds a line feed to the text, and indents are
    /// set.
    Paragraphs = 1,
    /// By the RTF 1.9.1 specification: a word is letters, a number or none, and one space or none;
    /// symbols and hex escapes are tokens of kind 6; behind each `\u` the next characters are passed
    /// over, as many as `\uc` says; any number but 0 turns a flag on; `\par` adds a line feed, and
    /// indents are set. What it leaves out is in docs/DIFFERENCES.md.
    Standard = 2,
}

impl Reading {
    /// The number in `host/elduvarn.h`.
    pub const fn number(self) -> u32 {
        self as u32
    }
}

/// Cuts a letter into tokens. Refusals 1 to 7. A letter of n bytes has at most n tokens.
pub fn cut<'a>(
    source: &[u8],
    reading: Reading,
    tokens: &'a mut [Token],
) -> Result<&'a [Token], Refused> {
    // SAFETY: both are slices, so not null, aligned, and of that many elements; the room is
    // borrowed for writing, so it overlaps nothing.
    let answer = unsafe {
        exported::elduvarn_cut(
            source.as_ptr(),
            source.len(),
            reading.number(),
            tokens.as_mut_ptr().cast(),
            tokens.len() * TOKEN_WORDS,
        )
    };
    Refused::told(answer.refusal, answer.place)?;
    Ok(&tokens[..answer.tokens as usize])
}

/// What is lent to [`read`]. A letter of n bytes has at most n tokens, n blocks and n bytes of text;
/// in standard reading 3 * n / 2 bytes of text, as `\_` gives three bytes for two.
pub struct Rooms<'a> {
    /// For tokens.
    pub tokens: &'a mut [Token],
    /// For the font table; [`MOST_FONTS`] are enough.
    pub fonts: &'a mut [Font],
    /// For the colour table; [`MOST_COLOURS`] are enough.
    pub colours: &'a mut [Colour],
    /// For blocks.
    pub blocks: &'a mut [Block],
    /// For the text of the blocks; [`MOST_TEXT`] bytes are enough.
    pub text: &'a mut [u8],
}

/// A letter that was read, in the rooms that were lent.
#[derive(Clone, Copy, Debug, PartialEq, Eq)]
pub struct Letter<'a> {
    /// The source's tokens.
    pub tokens: &'a [Token],
    /// The font table, ascending by key.
    pub fonts: &'a [Font],
    /// The colour table.
    pub colours: &'a [Colour],
    /// The blocks, each with the place and length of its text.
    pub blocks: &'a [Block],
    /// The text of all blocks: UTF-8, which is proved.
    pub text: &'a [u8],
}

impl<'a> Letter<'a> {
    /// The text as a string. That it is UTF-8 is proved, and looked at again here.
    pub fn text_str(&self) -> Result<&'a str, Utf8Error> {
        from_utf8(self.text)
    }
}

/// Reads a letter: tokens, font and colour table, blocks and their text. Refusals 1 to 20.
pub fn read<'a>(
    source: &[u8],
    reading: Reading,
    rooms: &'a mut Rooms<'_>,
) -> Result<Letter<'a>, Refused> {
    let by = match reading {
        Reading::Plain => exported::elduvarn_read_plain,
        Reading::Paragraphs => exported::elduvarn_read_paragraphs,
        Reading::Standard => exported::elduvarn_read_standard,
    };
    // SAFETY: all are slices, so not null, aligned, and of that many elements; the rooms are
    // borrowed for writing, so each overlaps nothing.
    let answer = unsafe {
        by(
            source.as_ptr(),
            source.len(),
            rooms.tokens.as_mut_ptr().cast(),
            rooms.tokens.len() * TOKEN_WORDS,
            rooms.fonts.as_mut_ptr().cast(),
            rooms.fonts.len() * FONT_WORDS,
            rooms.colours.as_mut_ptr(),
            rooms.colours.len(),
            rooms.blocks.as_mut_ptr().cast(),
            rooms.blocks.len() * BLOCK_WORDS,
            rooms.text.as_mut_ptr(),
            rooms.text.len(),
        )
    };
    Refused::told(answer.refusal, answer.place)?;
    Ok(Letter {
        tokens: &rooms.tokens[..answer.tokens as usize],
        fonts: &rooms.fonts[..answer.fonts as usize],
        colours: &rooms.colours[..answer.colours as usize],
        blocks: &rooms.blocks[..answer.blocks as usize],
        text: &rooms.text[..answer.text as usize],
    })
}

/// The stored form: blocks and their text as a list of bytes.
pub mod stored {
    use super::{exported, from_utf8, Block, Refusal, Utf8Error, BLOCK_WORDS};

    /// Bytes that hold the list of so many blocks and bytes of text, whatever they are: a block
    /// count of five groups; per block at most 42 (3 times 3, 1, 1, 2 times 5, 1, 4 times 5).
    pub const fn most(blocks: usize, text: usize) -> usize {
        5 + 42 * blocks + text
    }

    /// Whether a list is good, as if rooms for it were ample. Refusals 20 to 24; 20 only where its
    /// text passes 2,147,483,647 bytes.
    pub fn check(list: &[u8]) -> Result<(), Refusal> {
        // SAFETY: a slice, so not null, aligned, and of that many elements.
        Refusal::told(unsafe { exported::elduvarn_stored_check(list.as_ptr(), list.len()) })
    }

    /// Blocks and text that were read, in the rooms that were lent.
    #[derive(Clone, Copy, Debug, PartialEq, Eq)]
    pub struct Page<'a> {
        /// The blocks, each with the place and length of its text.
        pub blocks: &'a [Block],
        /// The text of all blocks: UTF-8, which is proved.
        pub text: &'a [u8],
    }

    impl<'a> Page<'a> {
        /// The text as a string. That it is UTF-8 is proved, and looked at again here.
        pub fn text_str(&self) -> Result<&'a str, Utf8Error> {
            from_utf8(self.text)
        }
    }

    /// Reads a list into blocks and text. Refusals 19 to 24. Indents are 0.
    pub fn read<'a>(
        list: &[u8],
        blocks: &'a mut [Block],
        text: &'a mut [u8],
    ) -> Result<Page<'a>, Refusal> {
        // SAFETY: all are slices, so not null, aligned, and of that many elements; the rooms are
        // borrowed for writing, so each overlaps nothing.
        let answer = unsafe {
            exported::elduvarn_stored_read(
                list.as_ptr(),
                list.len(),
                blocks.as_mut_ptr().cast(),
                blocks.len() * BLOCK_WORDS,
                text.as_mut_ptr(),
                text.len(),
            )
        };
        Refusal::told(answer.refusal)?;
        Ok(Page { blocks: &blocks[..answer.blocks], text: &text[..answer.text] })
    }

    /// Writes the list of blocks and their text, those of a reading. Refusals 24, 26 and 25, in this
    /// order.
    pub fn write<'a>(
        blocks: &[Block],
        text: &[u8],
        list: &'a mut [u8],
    ) -> Result<&'a [u8], Refusal> {
        // SAFETY: all are slices, so not null, aligned, and of that many elements; the room is
        // borrowed for writing, so it overlaps nothing.
        let answer = unsafe {
            exported::elduvarn_stored_write(
                blocks.as_ptr().cast(),
                blocks.len() * BLOCK_WORDS,
                text.as_ptr(),
                text.len(),
                list.as_mut_ptr(),
                list.len(),
            )
        };
        Refusal::told(answer.refusal)?;
        Ok(&list[..answer.bytes])
    }
}
