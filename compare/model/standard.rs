//! A1's cutting. A slice starts at a brace, a backslash, a raw carriage return or line feed, unless
//! that byte stands behind the backslash that starts a slice; it gives at most one token and a text.

use crate::cut::{byte_value, decimal, trimmed};
use crate::cut::{CLOSE, IGNORABLE, LINE_BREAK, NAMES, OPEN, TEXT, UNKNOWN, WORD};
use crate::{Cut, Refusal, Token};

/// A symbol or a hex escape: the byte behind the backslash stands where a word has its number.
pub const SYMBOL: u32 = 6;

/// What is told of a token before its slice; a text is told by its place and length.
type Told = [u32; 6];

/// The bytes of a slice, and the place of the first.
#[derive(Clone, Copy)]
struct Slice<'a> {
    bytes: &'a [u8],
    start: usize,
}

pub fn tokens(source: &[u8]) -> Cut {
    let mut tokens = Vec::new();
    let Some(within) = trimmed(source)? else {
        return Ok(tokens);
    };
    let mut start = within.start;
    while start < within.end {
        let rest = &source[start..within.end];
        let slice = Slice { bytes: &rest[..length(rest)], start };
        let refused = |number| Refusal { number, place: start as u32 };
        let (told, taken) = slice.front().map_err(refused)?;
        tokens.extend(told.map(|told| slice.token(told)));
        tokens.extend(slice.text_behind(taken).map(|told| slice.token(told)));
        start += slice.bytes.len();
    }
    match tokens.last() {
        Some(last) if last[0] != CLOSE => Err(Refusal::at(6, last)),
        _ => Ok(tokens),
    }
}

/// Bytes of the first slice of a source.
fn length(source: &[u8]) -> usize {
    let front = match source {
        [b'\\', b'\r', b'\n', ..] => 3,
        [b'\\', _, ..] => 2,
        _ => 1,
    };
    let special = |byte: &u8| matches!(byte, b'{' | b'}' | b'\\' | b'\r' | b'\n');
    let more = source[front..].iter().position(special);
    more.map_or(source.len(), |more| front + more)
}

impl Slice<'_> {
    /// The token at the front, if there is one, and the bytes that are no text; or a refusal.
    fn front(self) -> Result<(Option<Told>, usize), u32> {
        let (told, taken) = match *self.bytes {
            [b'{', ..] => (bare(OPEN), 1),
            [b'}', ..] => (bare(CLOSE), 1),
            [b'\r' | b'\n', ..] => return Ok((None, 1)),
            [b'\\'] => (symbol(0), 1),
            // The backslash goes, and the byte behind it is the first of the text.
            [b'\\', b'{' | b'}' | b'\\', ..] => return Ok((None, 1)),
            [b'\\', b'\r', b'\n', ..] => (bare(LINE_BREAK), 3),
            [b'\\', b'\r' | b'\n', ..] => (bare(LINE_BREAK), 2),
            [b'\\', b'*', ..] => (bare(IGNORABLE), 2),
            [b'\\', b'\'', ..] => (self.hex()?, 4),
            [b'\\', b'a'..=b'z' | b'A'..=b'Z', ..] => self.word()?,
            [b'\\', byte, ..] => (symbol(byte), 2),
            _ => return Ok((None, 0)),
        };
        Ok((Some(told), taken))
    }

    fn hex(self) -> Result<Told, u32> {
        let digits = self.bytes.get(2..4).ok_or(3_u32)?;
        let value = byte_value(digits).ok_or(4_u32)?;
        Ok([SYMBOL, u32::from(b'\''), 1, value, 0, 0])
    }

    /// Letters, a number or none, and a space or none.
    fn word(self) -> Result<(Told, usize), u32> {
        let run = |from: usize, is: fn(&u8) -> bool| {
            self.bytes[from..].iter().take_while(|byte| is(byte)).count()
        };
        let named = 1 + run(1, u8::is_ascii_alphabetic);
        let minus = usize::from(self.bytes.get(named) == Some(&b'-'));
        let digits = run(named + minus, u8::is_ascii_digit);
        let end = if digits > 0 { named + minus + digits } else { named };
        let (present, number) = match &self.bytes[named..end] {
            [] => (0, 0),
            number => (1, decimal(number).ok_or(5_u32)? as u32),
        };
        let name = &self.bytes[1..named];
        let told = match NAMES.iter().position(|known| known.as_bytes() == name) {
            Some(known) => [WORD, known as u32, present, number, 0, 0],
            None => [WORD, UNKNOWN, present, number, self.start as u32, named as u32],
        };
        Ok((told, end + usize::from(self.bytes.get(end) == Some(&b' '))))
    }

    fn text_behind(self, taken: usize) -> Option<Told> {
        let length = self.bytes.len() - taken;
        (length > 0).then_some([TEXT, 0, 0, 0, (self.start + taken) as u32, length as u32])
    }

    fn token(self, [kind, word, present, number, place, length]: Told) -> Token {
        let slice = [self.start, self.bytes.len()].map(|number| number as u32);
        [kind, word, present, number, place, length, slice[0], slice[1]]
    }
}

fn bare(kind: u32) -> Told {
    [kind, 0, 0, 0, 0, 0]
}

fn symbol(byte: u8) -> Told {
    [SYMBOL, u32::from(byte), 0, 0, 0, 0]
}
