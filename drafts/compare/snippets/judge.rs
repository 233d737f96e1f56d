//! A text, or a letter, on both sides.

use crate::call::{in_room, Asked, Call, Lent, Told};
use crate::letters::{self, LONGEST, READINGS};
use crate::ours::{self, Extractor};
use crate::progress::Progress;
use crate::rule::{self, MOST};
use crate::seen::Seen;
use crate::{known::Known, report};
use common::bridge;
use common::random::Random;
use model::Kind;

/// One letter in so many is also tried in small rooms.
const SMALL_ROOMS: usize = 4;
/// One plain call in so many says so by a number that is no reading's.
const OTHER_NUMBERS: usize = 8;
/// Bytes that hold any mail snippet.
const MOST_BYTES: usize = 4 * MOST;
/// Bytes of calls that may wait; without the bridge nothing is gained by waiting.
const BATCH: usize = if cfg!(bridge) { bridge::BATCH } else { 0 };
/// Bytes of a request in front of what is given.
const HEAD: usize = 32;

/// The rooms that a snippet is asked for in.
#[derive(Debug, Clone, Copy, PartialEq, Eq)]
pub enum Rooms {
    /// One that holds it.
    Ample,
    /// Also just enough, a byte too few, one that holds any mail snippet, and none.
    Around,
    /// Also each up to one more than enough.
    Every,
}

struct Letter {
    number: u64,
    bytes: Vec<u8>,
    rooms: Rooms,
}

pub struct Judge {
    /// Texts and letters.
    pub tried: u64,
    pub calls: u64,
    pub differences: u64,
    pub seen: Seen,
    pub progress: Progress,
    /// How many differences may still be printed.
    pub to_print: u32,
    random: Random,
    lent: Lent,
    extractor: Extractor,
    /// Letters that wait to be read together, calls of our side that wait to be sent, their bytes.
    letters: Vec<Letter>,
    waiting: Vec<Call>,
    letters_bytes: usize,
    bytes: usize,
    /// The last one tried with a difference: it counts once.
    differed: u64,
}

impl Judge {
    pub fn new(seed: u64) -> Self {
        Judge {
            tried: 0,
            calls: 0,
            differences: 0,
            seen: Seen::default(),
            progress: Progress::default(),
            to_print: 0,
            random: Random::new(seed),
            lent: Lent::default(),
            extractor: Extractor::new(),
            letters: Vec::new(),
            waiting: Vec::new(),
            letters_bytes: 0,
            bytes: 0,
            differed: 0,
        }
    }

    /// Compares a text of any bytes, as a mail snippet and with other limits. What our side says to
    /// it may be told only with `finish`.
    pub fn text(&mut self, text: &[u8], limits: &[usize], rooms: Rooms) {
        self.next();
        let all = rule::of_bytes(text, usize::MAX);
        self.seen.text(&all);
        for most in limits.iter().copied().chain([MOST]) {
            let snippet = self.by_rule(text, most);
            self.seen.snippet(&all, &snippet, most);
            let told = Ok(snippet);
            for room in self.rooms(rooms, &told, text.len()) {
                self.call(self.tried, Asked::SnipTo(text.to_vec(), most), room, &told);
                if most == MOST {
                    self.call(self.tried, Asked::Snip(text.to_vec()), room, &told);
                }
            }
        }
    }

    /// The same for a snippet that is known.
    pub fn known(&mut self, (text, most, snippet): &Known) {
        self.text(text, &[*most], Rooms::Every);
        let told = self.by_rule(text, *most);
        if told != *snippet {
            self.differ(self.tried, || report::not_known(text, *most, snippet, &told));
        }
    }

    /// Compares a letter of any length and bytes in each reading, now and then in small rooms.
    pub fn letter(&mut self, letter: &[u8]) {
        let small = self.random.once_in(SMALL_ROOMS);
        self.letter_in(letter, if small { Rooms::Around } else { Rooms::Ample });
    }

    pub fn letter_in(&mut self, letter: &[u8], rooms: Rooms) {
        self.next();
        let bytes = READINGS.len() * (letter.len() + HEAD);
        if self.letters_bytes + bytes > BATCH {
            self.finish_letters();
        }
        self.letters_bytes += bytes;
        self.letters.push(Letter { number: self.tried, bytes: letter.to_vec(), rooms });
    }

    /// Reads the letters that wait, and makes the calls that wait.
    pub fn finish(&mut self) {
        self.finish_letters();
        self.finish_calls();
    }

    fn next(&mut self) {
        self.tried += 1;
        self.progress.show(self.tried);
    }

    /// By characters where there are such; the other model must then say the same.
    fn by_rule(&mut self, text: &[u8], most: usize) -> Vec<u8> {
        let by_bytes = rule::of_bytes(text, most);
        if let Ok(characters) = std::str::from_utf8(text) {
            let by_characters = rule::of_text(characters, most).into_bytes();
            if by_characters != by_bytes {
                self.differ(self.tried, || {
                    report::models_differ(text, most, &by_characters, &by_bytes)
                });
            }
            return by_characters;
        }
        by_bytes
    }

    /// Sizes for a snippet, of a text or a letter of so many bytes.
    fn rooms(&mut self, rooms: Rooms, snippet: &Told, given: usize) -> Vec<usize> {
        let enough = snippet.as_ref().map_or(self.random.below(9), Vec::len);
        let ample = enough + self.random.below(given.min(600) + 3);
        let around = [enough, enough.saturating_sub(1), MOST_BYTES, 0];
        let mut sizes = vec![ample];
        match rooms {
            Rooms::Ample => {}
            Rooms::Around => sizes.extend(around),
            Rooms::Every => sizes.extend(0..=enough + 1),
        }
        sizes
    }

    fn finish_letters(&mut self) {
        let waiting = std::mem::take(&mut self.letters);
        let asked = || waiting.iter().filter(|letter| letter.bytes.len() <= LONGEST);
        self.extractor.send(asked().map(|letter| letter.bytes.as_slice()), &READINGS);
        let mut told = Vec::new();
        for letter in asked() {
            told.push(READINGS.map(|kind| self.extractor.read(&letter.bytes, kind)));
        }
        self.letters_bytes = 0;
        let mut told = told.into_iter();
        for letter in &waiting {
            if letter.bytes.len() > LONGEST {
                self.judged(letter, letters::too_long());
                continue;
            }
            let mut told = told.next().expect("as many answers");
            told[Kind::Plain as usize] = self.with_crate(letter, &told[Kind::Plain as usize]);
            self.judged(letter, told);
        }
    }

    /// The plain text by the crate, where it has an answer.
    fn with_crate(&mut self, letter: &Letter, ours: &Told) -> Told {
        let Some(says) = letters::by_crate(&letter.bytes) else {
            return ours.clone();
        };
        self.seen.with_crate += 1;
        let told = format!("{says:?}");
        letters::agreed(ours, says).unwrap_or_else(|| {
            self.differ(letter.number, || report::crate_differs(&letter.bytes, ours, &told));
            ours.clone()
        })
    }

    /// Asks for the snippets of texts that the three readings gave.
    fn judged(&mut self, letter: &Letter, texts: [Told; 3]) {
        for (kind, text) in READINGS.into_iter().zip(texts) {
            let snippet = match &text {
                Ok(text) => {
                    let snippet = self.by_rule(text, MOST);
                    self.seen.snippet(&rule::of_bytes(text, usize::MAX), &snippet, MOST);
                    Ok(snippet)
                }
                Err(refusal) => Err(*refusal),
            };
            for room in self.rooms(letter.rooms, &snippet, letter.bytes.len()) {
                let asked = Asked::Snippet(letter.bytes.clone(), self.number(kind));
                self.call(letter.number, asked, room, &snippet);
            }
        }
    }

    /// The number of a reading; any that is no other's is plain.
    fn number(&mut self, kind: Kind) -> u32 {
        if kind == Kind::Plain && self.random.once_in(OTHER_NUMBERS) {
            return *self.random.pick(&[3, 4, 0x100, 0x101, 0x8000_0001, u32::MAX]);
        }
        kind as u32
    }

    /// Puts a call of our side off.
    fn call(&mut self, number: u64, asked: Asked, room: usize, snippet: &Told) {
        self.calls += 1;
        let junk = self.random.draw() as u8 | 1;
        let expected = in_room(snippet, room);
        self.seen.call(&asked, &expected);
        let bytes = asked.given().len() + HEAD;
        if self.bytes + bytes > BATCH {
            self.finish_calls();
        }
        self.bytes += bytes;
        self.waiting.push(Call { number, asked, room, junk, expected });
    }

    fn finish_calls(&mut self) {
        ours::send(&self.waiting);
        for call in std::mem::take(&mut self.waiting) {
            if let Err(fault) = self.lent.made(&call) {
                self.differ(call.number, || report::fault(&call, &fault));
            }
        }
        self.bytes = 0;
    }

    fn differ(&mut self, number: u64, told: impl FnOnce() -> String) {
        if self.differed == number {
            return;
        }
        self.differed = number;
        self.differences += 1;
        if self.to_print > 0 {
            self.to_print -= 1;
            println!("{}", told());
        }
    }
}
