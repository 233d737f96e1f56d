//! A1's body: what is passed over behind a `u`, units in pairs, symbols and hex escapes. All else is
//! 01's, and body.rs has it.

use crate::body::{Body, U};
use crate::cut::{CLOSE, OPEN, TEXT, WORD};
use crate::{units, Kind, Met, Refusal, Rooms, Token, SYMBOL};

/// A byte that the table assigns nothing.
const NONE: u32 = 0xFFFD;
/// The published Windows-1252 table from byte 80 to 9F. All other bytes are the characters of their
/// number.
#[rustfmt::skip]
const WINDOWS_1252: [u32; 32] = [
    0x20AC, NONE,   0x201A, 0x0192, 0x201E, 0x2026, 0x2020, 0x2021,
    0x02C6, 0x2030, 0x0160, 0x2039, 0x0152, NONE,   0x017D, NONE,
    NONE,   0x2018, 0x2019, 0x201C, 0x201D, 0x2022, 0x2013, 0x2014,
    0x02DC, 0x2122, 0x0161, 0x203A, 0x0153, NONE,   0x017E, 0x0178,
];

struct Reader<'a> {
    body: Body,
    /// Characters that are still to be passed over.
    left: usize,
    /// A first half of a pair that is read and not yet added; nothing but what was passed over
    /// stands behind it.
    high: Option<u32>,
    source: &'a [u8],
    met: &'a mut Met,
}

pub fn read(
    source: &[u8],
    tokens: &[Token],
    passed: &[bool],
    rooms: &Rooms,
    met: &mut Met,
) -> Result<Body, Refusal> {
    let mut reader = Reader { body: Body::new(rooms), left: 0, high: None, source, met };
    for (token, passed) in tokens.iter().zip(passed) {
        if *passed {
            // Of a group that the walk took, the first token is a brace.
            reader.brace();
            reader.part()?;
        } else {
            reader.token(token)?;
        }
    }
    reader.part()?;
    Ok(reader.body)
}

impl Reader<'_> {
    fn token(&mut self, token: &Token) -> Result<(), Refusal> {
        if matches!(token[0], OPEN | CLOSE) {
            self.brace();
        }
        let Some(token) = self.not_skipped(*token) else {
            self.met.skipped = true;
            return Ok(());
        };
        if let [WORD, U, ..] = token {
            return self.unit(&token);
        }
        self.part()?;
        match token {
            [SYMBOL, byte, _, number, ..] => {
                self.body.skip_count().ok_or(Refusal::at(14, &token))?;
                character(byte, number).map_or(Ok(()), |scalar| self.add(&[scalar]))
            }
            _ => self.body.step(self.source, &[token], Kind::Standard, self.met),
        }
    }

    fn brace(&mut self) {
        self.met.ended |= self.left > 0;
        self.left = 0;
    }

    /// What is left of a token: a text may be passed over in part.
    fn not_skipped(&mut self, token: Token) -> Option<Token> {
        let [TEXT, word, present, number, place, length, slice, slice_length] = token else {
            let read = self.left == 0;
            self.left = self.left.saturating_sub(1);
            return read.then_some(token);
        };
        let skipped = self.left.min(length as usize) as u32;
        self.left -= skipped as usize;
        self.met.in_part |= 0 < skipped && skipped < length;
        let (place, length) = (place + skipped, length - skipped);
        let rest = [TEXT, word, present, number, place, length, slice, slice_length];
        (length > 0).then_some(rest)
    }

    fn unit(&mut self, token: &Token) -> Result<(), Refusal> {
        let count = self.body.skip_count().ok_or(Refusal::at(14, token))?;
        self.left = usize::try_from(count).unwrap_or(0);
        let unit = units::units(&[*token]).first().copied();
        match (self.high, unit) {
            (Some(high), Some(low @ 0xDC00..=0xDFFF)) => {
                self.high = None;
                self.met.paired = true;
                self.add(&[high, low])
            }
            (_, Some(high @ 0xD800..=0xDBFF)) => {
                self.part()?;
                self.high = Some(high);
                Ok(())
            }
            (_, unit) => {
                self.part()?;
                unit.map_or(Ok(()), |unit| self.add(&[unit]))
            }
        }
    }

    /// A first half that finds no second one is added before anything else is done.
    fn part(&mut self) -> Result<(), Refusal> {
        self.high.take().map_or(Ok(()), |high| self.add(&[high]))
    }

    fn add(&mut self, units: &[u32]) -> Result<(), Refusal> {
        self.body.add(&units::utf8(units).0)
    }
}

/// What a symbol or a hex escape adds.
fn character(byte: u32, number: u32) -> Option<u32> {
    match (byte as u8, number) {
        (b'~', _) => Some(0xA0),
        (b'_', _) => Some(0x2011),
        (b'-', _) => Some(0xAD),
        (b'\'', 0x80..=0x9F) => Some(WINDOWS_1252[number as usize - 0x80]),
        (b'\'', _) => Some(number),
        _ => None,
    }
}
