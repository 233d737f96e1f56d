//! 01's "Cutting", with the mended rules on byte 11, and A2's on a carriage return.

use crate::{Cut, Kind, Refusal, Token};
use std::ops::Range;

pub const TEXT: u32 = 0;
pub const OPEN: u32 = 1;
pub const CLOSE: u32 = 2;
pub const LINE_BREAK: u32 = 3;
pub const IGNORABLE: u32 = 4;
pub const WORD: u32 = 5;

#[rustfmt::skip]
pub const NAMES: [&str; 49] = [
    "rtf", "ansi", "u", "uc", "fonttbl", "colortbl", "filetbl", "stylesheet", "fcharset", "f",
    "fs", "cf", "i", "b", "ul", "ulnone", "super", "sub", "scaps", "strike",
    "par", "pard", "sectd", "plain", "s", "pardeftab", "ql", "qr", "qj", "qc",
    "fi", "ri", "li", "sb", "sa", "sl", "slmul", "red", "green", "blue",
    "emdash", "endash", "bullet", "lquote", "rquote", "ldblquote", "rdblquote", "tab", "line",
];
pub const UNKNOWN: u32 = 49;

/// The number of a name, found when this is compiled.
pub const fn number_of(name: &str) -> u32 {
    let mut number = 0;
    while !same(NAMES[number].as_bytes(), name.as_bytes()) {
        number += 1;
    }
    number as u32
}

const fn same(one: &[u8], two: &[u8]) -> bool {
    let mut i = 0;
    while i < one.len() && i < two.len() && one[i] == two[i] {
        i += 1;
    }
    i == one.len() && i == two.len()
}

const U: u32 = number_of("u");

/// What 01's rules tell of a token; its slice is put behind these words.
type Told = [u32; 6];

/// A part of a source, from the first place to before the second.
#[derive(Clone, Copy)]
struct Part<'a> {
    source: &'a [u8],
    start: usize,
    end: usize,
}

/// From the first byte that is not white to behind the last one, of a source within the limits;
/// none if it is blank.
pub fn trimmed(source: &[u8]) -> Result<Option<Range<usize>>, Refusal> {
    if source.len() > 65_536 {
        return Err(Refusal::nowhere(1));
    }
    if source.iter().any(|byte| *byte > 127) {
        return Err(Refusal::nowhere(2));
    }
    let Some(start) = source.iter().position(|byte| !white(*byte)) else {
        return Ok(None);
    };
    let end = source.iter().rposition(|byte| !white(*byte)).map_or(start, |last| last + 1);
    Ok(Some(start..end))
}

pub fn tokens(source: &[u8], kind: Kind) -> Cut {
    let mut tokens = Vec::new();
    let Some(Range { mut start, end }) = trimmed(source)? else {
        return Ok(tokens);
    };
    let mut told = Vec::new();
    for place in start + 1..end {
        let whole = Part { source, start, end: place };
        if whole.ends_before(source[place], kind) {
            slice(whole, kind, &mut told).map_err(|number| whole.refused(number))?;
            tokens.extend(told.drain(..).map(|told| whole.token(told)));
            start = place;
        }
    }
    let last = Part { source, start, end };
    if last.bytes() != b"}" {
        return Err(last.refused(6));
    }
    tokens.push(last.token(bare(CLOSE)));
    Ok(tokens)
}

fn slice(part: Part, kind: Kind, tokens: &mut Vec<Told>) -> Result<(), u32> {
    match part.bytes().first() {
        None => return Ok(()),
        Some(b'{') => tokens.push(bare(OPEN)),
        Some(b'}') => tokens.push(bare(CLOSE)),
        Some(b'\n') => {}
        Some(b'\\') => return escape(part, kind, tokens),
        Some(_) => {
            plain_tail(part, tokens);
            return Ok(());
        }
    }
    slice(part.after(1), kind, tokens)
}

fn escape(part: Part, kind: Kind, tokens: &mut Vec<Told>) -> Result<(), u32> {
    match part.after(1).bytes().first() {
        Some(b'{' | b'}' | b'\\') => tokens.push(text(part.after(1))),
        Some(b'\'') => {
            let hex = part.bytes().get(2..4).ok_or(3_u32)?;
            tokens.push([WORD, U, 1, byte_value(hex).ok_or(4_u32)?, 0, 0]);
            plain_tail(part.after(4), tokens);
        }
        Some(b'\n') => {
            tokens.push(bare(LINE_BREAK));
            plain_tail(part.after(2), tokens);
        }
        Some(b'\r') if kind == Kind::Paragraphs => {
            tokens.push(bare(LINE_BREAK));
            let taken = if part.bytes().get(2) == Some(&b'\n') { 3 } else { 2 };
            plain_tail(part.after(taken), tokens);
        }
        Some(b'a'..=b'z') => return word(part, tokens),
        Some(b'*') => tokens.push(bare(IGNORABLE)),
        _ if part.after(1).bytes().iter().all(|byte| *byte == b' ') => tokens.push(text(part)),
        _ => {}
    }
    Ok(())
}

fn word(part: Part, tokens: &mut Vec<Told>) -> Result<(), u32> {
    let bytes = part.bytes();
    let stop = bytes.iter().position(|byte| ends_word(*byte)).unwrap_or(bytes.len());
    let named = bytes[..stop].strip_suffix(b";").unwrap_or(&bytes[..stop]);
    let digits = named.iter().rev().take_while(|b| b.is_ascii_digit() || **b == b'-').count();
    let (name, digits) = named.split_at(named.len() - digits);
    let (present, number) = match digits {
        [] => (0, 0),
        _ => (1, decimal(digits).ok_or(5_u32)? as u32),
    };
    tokens.push(match NAMES.iter().position(|known| known.as_bytes() == &name[1..]) {
        Some(known) => [WORD, known as u32, present, number, 0, 0],
        None => [WORD, UNKNOWN, present, number, part.start as u32, name.len() as u32],
    });
    let tail = part.after(stop + 1);
    if tail.bytes().contains(&11) {
        plain_tail(tail, tokens);
    } else if !tail.bytes().is_empty() {
        tokens.push(text(tail));
    }
    Ok(())
}

fn plain_tail(part: Part, tokens: &mut Vec<Told>) {
    if !part.bytes().iter().all(|byte| white(*byte)) {
        tokens.push(text(part));
    }
}

fn text(part: Part) -> Told {
    [TEXT, 0, 0, 0, part.start as u32, part.bytes().len() as u32]
}

fn bare(kind: u32) -> Told {
    [kind, 0, 0, 0, 0, 0]
}

/// Two hex digits, or `+` and one.
pub fn byte_value(hex: &[u8]) -> Option<u32> {
    let digit = |byte: u8| char::from(byte).to_digit(16);
    let high = if hex[0] == b'+' { 0 } else { digit(hex[0])? };
    Some(16 * high + digit(hex[1])?)
}

/// A minus sign or none, and digits, of at most 32 bits.
pub fn decimal(digits: &[u8]) -> Option<i32> {
    let (sign, digits) = match digits {
        [b'-', digits @ ..] => (-1, digits),
        _ => (1, digits),
    };
    if digits.is_empty() || digits.contains(&b'-') {
        return None;
    }
    // Far above 32 bits the value stays where it is, and stays refused.
    let add = |value: i64, digit: &u8| (10 * value + i64::from(digit - b'0')).min(1 << 40);
    i32::try_from(sign * digits.iter().fold(0, add)).ok()
}

fn white(byte: u8) -> bool {
    matches!(byte, 9..=13 | 32)
}

fn ends_word(byte: u8) -> bool {
    white(byte) && byte != 11
}

fn special(byte: u8) -> bool {
    matches!(byte, b'{' | b'}' | b'\\' | b'\n')
}

impl<'a> Part<'a> {
    fn bytes(self) -> &'a [u8] {
        &self.source[self.start..self.end]
    }

    /// Without so many bytes in front, or the empty part at its end.
    fn after(self, bytes: usize) -> Self {
        Part { start: (self.start + bytes).min(self.end), ..self }
    }

    /// Whether the byte behind what there is of a slice starts the next one. By paragraphs a line
    /// feed directly behind a backslash and a carriage return is theirs.
    fn ends_before(self, byte: u8, kind: Kind) -> bool {
        let theirs = kind == Kind::Paragraphs && byte == b'\n' && self.bytes() == b"\\\r";
        special(byte) && !self.bytes().ends_with(b"\\") && !theirs
    }

    /// A token that was cut from this slice.
    fn token(self, [kind, word, present, number, place, length]: Told) -> Token {
        let slice = [self.start, self.bytes().len()].map(|number| number as u32);
        [kind, word, present, number, place, length, slice[0], slice[1]]
    }

    /// A refusal that this slice caused.
    fn refused(self, number: u32) -> Refusal {
        Refusal { number, place: self.start as u32 }
    }
}
