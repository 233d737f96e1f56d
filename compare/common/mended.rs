//! What the crate is asked in place of a letter by paragraphs. It takes a backslash before a line
//! feed for a line break, and before a carriage return for nothing; request A2 wants a break there
//! too.

use crate::cut::{Cut, Told};
use crate::whole::Whole;
use std::borrow::Cow;

/// A letter with a line feed for each carriage return behind a backslash that starts a slice; a
/// line feed directly behind that carriage return is left out.
pub struct Mended<'a> {
    pub letter: Cow<'a, str>,
    /// For each byte its place in the letter that was mended; empty if nothing was.
    places: Vec<u32>,
}

/// An answer that has tokens, or none.
pub trait Placed {
    fn tokens(&mut self) -> &mut [Told];
}

impl Placed for Cut {
    fn tokens(&mut self) -> &mut [Told] {
        match self {
            Cut::Tokens(tokens) => tokens,
            Cut::Refused(_) => &mut [],
        }
    }
}

impl Placed for Whole {
    fn tokens(&mut self) -> &mut [Told] {
        match self {
            Whole::Read(document) => &mut document.tokens,
            Whole::Refused(_) => &mut [],
        }
    }
}

/// Whether there may be something to mend.
pub fn has_return(letter: &str) -> bool {
    letter.contains("\\\r")
}

impl<'a> Mended<'a> {
    pub fn new(letter: &'a str) -> Self {
        if !has_return(letter) {
            return Mended { letter: Cow::Borrowed(letter), places: Vec::new() };
        }
        let bytes = letter.as_bytes();
        let mut mended = Vec::new();
        let mut places = Vec::new();
        let mut at = 0;
        while at < bytes.len() {
            let starts = at == 0 || bytes[at - 1] != b'\\';
            let taken = match &bytes[at..] {
                [b'\\', b'\r', b'\n', ..] if starts => 3,
                [b'\\', b'\r', ..] if starts => 2,
                _ => 1,
            };
            let put = if taken == 1 { &bytes[at..=at] } else { b"\\\n" };
            places.extend((at..at + put.len()).map(|place| place as u32));
            mended.extend_from_slice(put);
            at += taken;
        }
        let mended = String::from_utf8(mended).expect("only white space has changed");
        Mended { letter: Cow::Owned(mended), places }
    }

    /// The answer to this letter with the places of the one that was mended.
    pub fn told<T: Placed>(&self, mut answer: T) -> T {
        if !self.places.is_empty() {
            let placed = answer.tokens().iter_mut().filter(|told| told[5] > 0);
            placed.for_each(|told| told[4] = self.places[told[4] as usize]);
        }
        answer
    }
}
