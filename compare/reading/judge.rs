//! One letter on all sides: the model against the crate, ours against the model.

use crate::lent::Call;
use crate::outside::{agrees, Outside, Tallies};
use crate::parts::{Differences, Judging};
use crate::queue::{Queue, JUNK};
use crate::seen::Seen;
use crate::{report, small};
use common::mended::has_return;
use common::oracle::{self, Reading};
use common::random::Random;
use model::{Answer, Kind, Rooms, KINDS};

/// One letter in so many is also read in small rooms, so many times.
const SMALL_ROOMS: usize = 4;
const TIMES: usize = 4;

pub struct Judge {
    pub letters: u64,
    pub queue: Queue,
    pub seen: Seen,
    pub outside: Tallies,
    differences: Differences,
    random: Random,
}

impl Judging for Judge {
    const UNIT: &str = "letters";

    fn compared(&self) -> [u64; 2] {
        [self.letters, self.seen.successes()]
    }

    fn differences(&mut self) -> &mut Differences {
        &mut self.differences
    }

    fn finish(&mut self) {
        self.queue.finish(&mut self.differences);
    }
}

impl Judge {
    pub fn new(seed: u64) -> Self {
        Judge {
            letters: 0,
            queue: Queue::default(),
            seen: Seen::new(),
            outside: Tallies::default(),
            differences: Differences::default(),
            random: Random::new(seed),
        }
    }

    /// Compares a letter of any length and bytes, in large rooms and now and then in small ones.
    /// What our side says to it may be told only with `finish`.
    pub fn letter(&mut self, letter: &[u8]) {
        let answers = self.judged(letter);
        if self.random.once_in(SMALL_ROOMS) {
            for _ in 0..TIMES {
                let kind = *self.random.pick(&KINDS);
                let rooms = small::tight(&mut self.random, &answers[kind as usize], letter.len());
                self.in_small_rooms(letter, kind, &rooms);
            }
        }
    }

    /// The same, in rooms of every size.
    pub fn letter_in_every_size(&mut self, letter: &[u8]) {
        let answers = self.judged(letter);
        for kind in KINDS {
            for rooms in small::every_size(&answers[kind as usize], letter.len()) {
                self.in_small_rooms(letter, kind, &rooms);
            }
        }
    }

    /// The model's two answers in rooms that hold everything, after comparing all sides in such.
    fn judged(&mut self, letter: &[u8]) -> [Answer; 2] {
        self.letters += 1;
        let ample = small::ample(letter.len());
        let readings = KINDS.map(|kind| model::read(letter, kind, &ample));
        let outside = readings.each_ref().map(|(answer, met)| Outside::of(answer, met));
        let answers = readings.map(|(answer, _)| answer);
        self.seen.letter(&answers, outside[Kind::Plain as usize].is_none());
        if let Err(told) = self.with_crate(letter, &answers, outside) {
            self.differences.found(self.letters, || told);
        }
        for kind in KINDS {
            let answer = &answers[kind as usize];
            let rooms = small::large(&mut self.random, answer, letter.len());
            self.call(letter, kind, &rooms, answer.clone());
        }
        answers
    }

    fn with_crate(
        &mut self,
        letter: &[u8],
        answers: &[Answer; 2],
        outside: [Option<Outside>; 2],
    ) -> Result<(), String> {
        let mut says = None;
        for kind in KINDS {
            let (answer, outside) = (&answers[kind as usize], outside[kind as usize]);
            if let (Some(outside), Kind::Plain) = (outside, kind) {
                self.outside.count(outside);
            }
            // What is outside is asked plainly alone.
            if outside.is_some_and(|outside| kind == Kind::Paragraphs || !outside.asked()) {
                continue;
            }
            let text = std::str::from_utf8(letter).expect("a letter for the crate is ASCII");
            // Without the name and the carriage return the crate's two readings are one.
            let paragraphs = kind == Kind::Paragraphs;
            if paragraphs && (text.contains("\\par") || has_return(text)) {
                says = None;
            }
            let says = says.get_or_insert_with(|| oracle::whole_readings(text, paragraphs));
            if let Some(outside) = outside {
                self.outside.asked(outside, letter, answer, says);
                continue;
            }
            let same = |reading: &Reading<_>| match reading {
                Reading::Answered(whole) => agrees(letter, kind, answer, whole),
                Reading::Panicked(_) => false,
            };
            if !says.iter().all(same) {
                return Err(report::model_against_crate(letter, kind, answer, says));
            }
        }
        Ok(())
    }

    fn in_small_rooms(&mut self, letter: &[u8], kind: Kind, rooms: &Rooms) {
        let (answer, _) = model::read(letter, kind, rooms);
        self.seen.small_rooms(kind, &answer);
        self.call(letter, kind, rooms, answer);
    }

    fn call(&mut self, letter: &[u8], kind: Kind, rooms: &Rooms, expected: Answer) {
        let call = Call {
            number: self.letters,
            letter: letter.to_vec(),
            kind,
            rooms: *rooms,
            junk: self.random.draw() as u32 | JUNK,
        };
        self.queue.put(call, expected, &mut self.differences);
    }
}
