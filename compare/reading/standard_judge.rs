//! One letter in standard reading, cut and read, ours against the model; and two answers of ours
//! against each other. The crate has no such reading.

use crate::alike::{alike, difference};
use crate::lent::{wrong_element, Call, Lent};
use crate::pairs::Pair;
use crate::parts::{Differences, Judging};
use crate::queue::{Queue, JUNK};
use crate::standard_seen::Seen;
use crate::veil::veil;
use crate::{ours, report, small};
use common::oracle::Reading;
use common::random::Random;
use common::room::{Room, Source};
use common::whole::Whole;
use model::{Answer, Cut, Kind, Numbers, Refusal, Rooms, Token, TOKENS, TOKEN_WORDS};

const KIND: Kind = Kind::Standard;
/// One letter in so many is also cut and read in small rooms, so many times each.
const SMALL_ROOMS: usize = 4;
const TIMES: usize = 4;

pub struct Judge {
    pub letters: u64,
    pub queue: Queue,
    pub seen: Seen,
    /// Calls whose answer was compared with another of ours, or that cut a letter.
    pub calls: u64,
    differences: Differences,
    random: Random,
    source: Source,
    room: Room,
    lent: Lent,
}

impl Judging for Judge {
    const UNIT: &str = "letters";

    fn compared(&self) -> [u64; 2] {
        [self.letters, self.seen.successes()]
    }

    fn differences(&mut self) -> &mut Differences {
        &mut self.differences
    }

    fn finish(&mut self) {
        self.queue.finish(&mut self.differences);
    }
}

impl Judge {
    pub fn new(seed: u64) -> Self {
        Judge {
            letters: 0,
            queue: Queue::default(),
            seen: Seen::default(),
            calls: 0,
            differences: Differences::default(),
            random: Random::new(seed),
            source: Source::default(),
            room: Room::default(),
            lent: Lent::default(),
        }
    }

    /// Compares a letter of any length and bytes, in large rooms and now and then in small ones.
    pub fn letter(&mut self, letter: &[u8]) {
        let (cut, answer) = self.judged(letter);
        if self.random.once_in(SMALL_ROOMS) {
            for _ in 0..TIMES {
                let words = small::around(&mut self.random, enough(&cut), TOKEN_WORDS);
                self.cut(letter, &cut, words);
                let rooms = small::tight(&mut self.random, &answer, letter.len());
                self.in_small_rooms(letter, &rooms);
            }
        }
    }

    /// The same, in rooms of every size.
    pub fn letter_in_every_size(&mut self, letter: &[u8]) {
        let (cut, answer) = self.judged(letter);
        for words in 0..=enough(&cut) + TOKEN_WORDS + 1 {
            self.cut(letter, &cut, words);
        }
        for rooms in small::every_size(&answer, letter.len()) {
            self.in_small_rooms(letter, &rooms);
        }
    }

    /// The model's cutting and answer in rooms that hold everything, after comparing them.
    fn judged(&mut self, letter: &[u8]) -> (Cut, Answer) {
        self.letters += 1;
        let ample = small::ample(letter.len());
        let cut = model::cut(letter, KIND);
        let (answer, met) = model::read(letter, KIND, &ample);
        self.seen.letter(&cut, &answer, &met);
        self.cut(letter, &cut, ample[TOKENS]);
        let rooms = small::large(&mut self.random, &answer, letter.len());
        self.call(letter, &rooms, answer.clone());
        (cut, answer)
    }

    fn in_small_rooms(&mut self, letter: &[u8], rooms: &Rooms) {
        let (answer, _) = model::read(letter, KIND, rooms);
        self.seen.small_rooms(&answer);
        self.call(letter, rooms, answer);
    }

    fn call(&mut self, letter: &[u8], rooms: &Rooms, expected: Answer) {
        let call = self.new_call(letter, KIND, rooms);
        self.queue.put(call, expected, &mut self.differences);
    }

    fn new_call(&mut self, letter: &[u8], kind: Kind, rooms: &Rooms) -> Call {
        let junk = self.random.draw() as u32 | JUNK;
        Call { number: self.letters, letter: letter.to_vec(), kind, rooms: *rooms, junk }
    }

    /// Compares a cutting in a room of so many words.
    fn cut(&mut self, letter: &[u8], cut: &Cut, words: usize) {
        self.calls += 1;
        let (Refusal { number, place }, tokens) = in_room(cut, words);
        let junk = self.random.draw() as u32 | JUNK;
        let numbers = ours::cut(self.source.lend(letter), self.room.lend(words, junk));
        let what = if !self.room.guards_hold() {
            "a word outside the room was written".to_string()
        } else if numbers != [number, place, tokens.len() as u32] {
            "another refusal, place or count".to_string()
        } else if let Some(wrong) = wrong_element(self.room.lent(), tokens.as_flattened()) {
            format!("room, {wrong}")
        } else {
            return;
        };
        self.differences.found(self.letters, || {
            format!(
                "DIFFERENCE, {} against model, cut for standard reading: {}\n  room of {words} \
                 words: {what}\n  expected: refusal {number} at {place}, {} tokens {tokens:?}\n  \
                 ours:     {numbers:?}",
                ours::NAME,
                report::escaped(letter),
                tokens.len()
            )
        });
    }

    /// Compares a letter as any other, and then our own answers in standard and paragraph reading.
    pub fn agreeing(&mut self, letter: &[u8]) {
        self.letter(letter);
        self.seen.agreed();
        let rooms = small::ample(letter.len());
        let says = [Kind::Paragraphs, KIND].map(|kind| self.told(letter, kind, &rooms));
        if says[0] != says[1] {
            let letters = [(); 2].map(|()| letter.to_vec());
            let side = format!("{}, by paragraphs and in standard reading", ours::NAME);
            self.apart(&side, &letters, says);
        }
    }

    /// Compares two letters that differ only in what is hidden as any others, and then our own
    /// answers to them; a pair that was wrongly drawn counts as a difference.
    pub fn pair(&mut self, Pair { letters, .. }: &Pair) {
        letters.iter().for_each(|letter| self.letter(letter));
        self.seen.paired();
        let [one, two] = letters.each_ref().map(|letter| veil(letter, KIND));
        if one.is_none() || one != two {
            let nothing = ["", ""].map(String::from);
            let told = || difference("outside the premise", letters, &nothing);
            self.differences.found(self.letters, told);
        }
        let bytes = letters.iter().map(Vec::len).max().unwrap_or(0);
        let (answer, _) = model::read(&letters[0], KIND, &small::ample(bytes));
        self.alike(letters, &small::ample(bytes));
        let mut rooms = small::tight(&mut self.random, &answer, bytes);
        rooms[TOKENS] = small::ample(bytes)[TOKENS];
        self.alike(letters, &rooms);
    }

    /// Compares our answers to two letters; false if they are told apart.
    pub fn alike(&mut self, letters: &[Vec<u8>; 2], rooms: &Rooms) -> bool {
        let says = letters.each_ref().map(|letter| self.told(letter, KIND, rooms));
        let same = matches!(&says, [Ok(one), Ok(two)] if alike(one, two));
        if !same {
            let side = format!("{}, {KIND:?}, rooms of {rooms:?} elements", ours::NAME);
            self.apart(&side, letters, says);
        }
        same
    }

    fn told(&mut self, letter: &[u8], kind: Kind, rooms: &Rooms) -> Result<Whole, Numbers> {
        self.calls += 1;
        let call = self.new_call(letter, kind, rooms);
        ours::send(std::slice::from_ref(&call));
        self.lent.told(&call)
    }

    fn apart(&mut self, side: &str, letters: &[Vec<u8>; 2], says: [Result<Whole, Numbers>; 2]) {
        let told = says.map(|says| match says {
            Ok(whole) => report::reading(&Reading::Answered(whole)),
            Err(numbers) => format!("an answer that cannot be: {numbers:?}"),
        });
        self.differences.found(self.letters, || difference(side, letters, &told));
    }
}

/// What a room of so many words must show: the refusal, of number 0 for success, and the tokens.
fn in_room(cut: &Cut, words: usize) -> (Refusal, &[Token]) {
    match model::in_room(cut, words) {
        Ok(tokens) => (Refusal::default(), tokens),
        Err(refusal) => (refusal, &[]),
    }
}

/// The words of a room that is just large enough.
fn enough(cut: &Cut) -> usize {
    cut.as_ref().map_or(0, |tokens| tokens.len() * TOKEN_WORDS)
}
