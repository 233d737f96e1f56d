//! One letter on all sides, in both readings: the model against the crate, ours against the model,
//! word by word.

use crate::ours;
use crate::report;
use crate::seen::Seen;
use common::cut::{PARAGRAPHS, PLAIN, ROOM_SMALL, STANDARD};
use common::mended::has_return;
use common::oracle::{self, Reading};
use common::random::Random;
use common::room::{Room, Source};
use model::{Cut, Kind, Refusal, Token, KINDS, TOKEN_WORDS};

/// One letter in so many is also tried in small rooms, and each that is so short.
const SMALL_ROOMS: usize = 8;
const SHORT: usize = 4;
/// One plain cutting in so many says so by another number than 0.
const OTHER_NUMBER: usize = 8;

pub struct Judge {
    pub letters: u64,
    pub calls: u64,
    pub differences: u64,
    pub seen: Seen,
    /// How many differences may still be printed.
    pub to_print: u32,
    random: Random,
    source: Source,
    room: Room,
}

/// Our answer in one room, where it is not the one expected.
pub struct Fault {
    /// The number of the reading.
    pub reading: u32,
    pub words: usize,
    /// Refusal number, its place, token count.
    pub numbers: [u32; 3],
    pub what: String,
    pub room: Vec<u32>,
}

impl Judge {
    pub fn new(seed: u64) -> Self {
        Judge {
            letters: 0,
            calls: 0,
            differences: 0,
            seen: Seen::default(),
            to_print: 0,
            random: Random::new(seed),
            source: Source::default(),
            room: Room::default(),
        }
    }

    /// Compares a letter of at most 65,536 bytes, all below 128, with both builds of the crate and
    /// with the model, which alone has slices and places.
    pub fn letter(&mut self, letter: &[u8]) {
        let text = std::str::from_utf8(letter).expect("a letter for the crate is ASCII");
        let cuts = KINDS.map(|kind| model::cut(letter, kind));
        let mut says =
            [oracle::wrapping_reading(text, false), oracle::checked_reading(text, false)];
        for (kind, cut) in KINDS.into_iter().zip(&cuts) {
            // Without these bytes the crate is asked the same.
            if kind == Kind::Paragraphs && has_return(text) {
                says = [oracle::wrapping_reading(text, true), oracle::checked_reading(text, true)];
            }
            let answer = cut.as_deref().map_err(|refusal| refusal.number);
            let [wrapping, checked] = &says;
            let agrees = matches!(wrapping, Reading::Answered(told) if told.agrees(answer));
            if !agrees || wrapping != checked {
                self.letters += 1;
                return self.differ(|| report::builds(letter, kind, cut, wrapping, checked));
            }
        }
        let small_rooms = letter.len() <= SHORT || self.random.once_in(SMALL_ROOMS);
        self.expect(letter, &cuts, small_rooms);
    }

    /// Expects a refusal without a place in both readings.
    pub fn expect_refused(&mut self, letter: &[u8], number: u32, small_rooms: bool) {
        self.expect(letter, &KINDS.map(|_| Err(Refusal::nowhere(number))), small_rooms);
    }

    /// Compares our answers with `cuts`, in an ample room and, if wanted, in small ones.
    fn expect(&mut self, letter: &[u8], cuts: &[Cut; 2], small_rooms: bool) {
        self.letters += 1;
        self.seen.count(cuts);
        // No byte gives more than one token, so this is ample whatever the answer is.
        let ample = (letter.len() + 2) * TOKEN_WORDS - 1;
        for (kind, cut) in KINDS.into_iter().zip(cuts) {
            let mut fault = self.call(letter, kind, cut, ample).err();
            if small_rooms && fault.is_none() {
                fault = rooms(enough(cut))
                    .into_iter()
                    .find_map(|words| self.call(letter, kind, cut, words).err());
            }
            if let Some(fault) = fault {
                return self.differ(|| report::fault(letter, cut, &fault));
            }
        }
    }

    fn reading(&mut self, kind: Kind) -> u32 {
        match kind {
            Kind::Paragraphs => PARAGRAPHS,
            Kind::Plain if self.random.once_in(OTHER_NUMBER) => {
                *self.random.pick(&[3, 4, 256, 257, 258, 1 << 31, u32::MAX])
            }
            Kind::Plain => PLAIN,
            Kind::Standard => STANDARD,
        }
    }

    fn call(&mut self, letter: &[u8], kind: Kind, cut: &Cut, words: usize) -> Result<(), Fault> {
        self.calls += 1;
        let (refusal, records) = in_room(cut, words);
        if refusal.number == ROOM_SMALL {
            self.seen.count_small_room();
        }
        let reading = self.reading(kind);
        let junk = self.random.draw() as u32 | 0x8000_0001;
        let numbers = ours::cut(self.source.lend(letter), reading, self.room.lend(words, junk));
        let wrong = wrong_word(self.room.lent(), records.as_flattened(), junk);
        let what = if !self.room.guards_hold() {
            "a word outside the room was written".to_string()
        } else if numbers != [refusal.number, refusal.place, records.len() as u32] {
            "another refusal, place or count".to_string()
        } else if let Some(wrong) = wrong {
            wrong
        } else {
            return Ok(());
        };
        let room = self.room.lent().to_vec();
        Err(Fault { reading, words, numbers, what, room })
    }

    fn differ(&mut self, print: impl FnOnce()) {
        self.differences += 1;
        if self.to_print > 0 {
            self.to_print -= 1;
            print();
        }
    }
}

/// What a room of so many words must show: the refusal, of number 0 for success, and the records.
pub fn in_room(cut: &Cut, words: usize) -> (Refusal, &[Token]) {
    match model::in_room(cut, words) {
        Ok(records) => (Refusal::default(), records),
        Err(refusal) => (refusal, &[]),
    }
}

/// The words of a room that is just large enough.
fn enough(cut: &Cut) -> usize {
    cut.as_ref().map_or(0, |records| records.len() * TOKEN_WORDS)
}

/// Says where the room is not the records and then zeros.
fn wrong_word(room: &[u32], records: &[u32], junk: u32) -> Option<String> {
    let (front, back) = room.split_at(records.len().min(room.len()));
    if front == records && back.iter().all(|word| *word == 0) {
        return None;
    }
    let expected = |i: usize| records.get(i).copied().unwrap_or(0);
    let place = (0..room.len()).find(|i| room[*i] != expected(*i))?;
    let left = if room[place] == junk { ", left as it was" } else { "" };
    Some(format!("room word {place} should be {}{left}", expected(place)))
}

/// Rooms around the size that is just enough; all of them up to it if it is small.
fn rooms(enough: usize) -> Vec<usize> {
    if enough <= 5 * TOKEN_WORDS {
        return (0..=enough + TOKEN_WORDS + 2).collect();
    }
    let less = enough - TOKEN_WORDS;
    let half = enough / 2;
    vec![
        0,
        1,
        TOKEN_WORDS - 1,
        TOKEN_WORDS,
        TOKEN_WORDS + 1,
        2 * TOKEN_WORDS,
        half,
        half + 1,
        less - 1,
        less,
        less + 1,
        enough - 1,
        enough,
        enough + 1,
        enough + TOKEN_WORDS - 1,
        enough + TOKEN_WORDS,
        enough + TOKEN_WORDS + 1,
    ]
}
