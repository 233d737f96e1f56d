//! A list, or a letter, on both sides.

use crate::call::{in_room, Call, Lent, Side};
use crate::seen::Seen;
use crate::{ours, report};
use common::bridge;
use common::random::Random;
use model::Kind;
use records::Records;
use rule::{Rule, Told, STORED_FIELD};
use std::rc::Rc;

/// One list in so many is also tried in small rooms.
const SMALL_ROOMS: usize = 4;
/// Bytes of calls that may wait; without the bridge nothing is gained by waiting.
const BATCH: usize = if cfg!(bridge) { bridge::BATCH } else { 0 };
/// Bytes of a request in front of what is given.
const HEAD: usize = 32;
const READINGS: [Kind; 3] = [Kind::Plain, Kind::Paragraphs, Kind::Standard];

/// The rooms that a fragment is asked for in.
#[derive(Debug, Clone, Copy, PartialEq, Eq)]
pub enum Rooms {
    /// One that holds it.
    Ample,
    /// Also just enough, a byte too few, some byte too few, and none.
    Around,
    /// Also each up to one more than enough.
    Every,
}

pub struct Judge {
    /// Lists; those of letters count.
    pub tried: u64,
    pub calls: u64,
    pub differences: u64,
    pub seen: Seen,
    /// How many differences may still be printed.
    pub to_print: u32,
    side: Side,
    rule: Rule,
    random: Random,
    lent: Lent,
    /// Calls that wait to be sent together, and their bytes.
    waiting: Vec<Call>,
    bytes: usize,
    /// The last one tried with a difference: it counts once.
    differed: u64,
}

impl Judge {
    pub fn new(side: Side, seed: u64) -> Self {
        Judge {
            tried: 0,
            calls: 0,
            differences: 0,
            seen: Seen::default(),
            to_print: 0,
            side,
            rule: Rule::right(),
            random: Random::new(seed),
            lent: Lent::default(),
            waiting: Vec::new(),
            bytes: 0,
            differed: 0,
        }
    }

    /// Compares a list, good or bad, now and then in small rooms. What our side says to it may be
    /// told only with `finish`.
    pub fn list(&mut self, records: Records) {
        let small = self.random.once_in(SMALL_ROOMS);
        self.list_in(records, if small { Rooms::Around } else { Rooms::Ample });
    }

    pub fn list_in(&mut self, records: Records, rooms: Rooms) {
        _ = self.judged(records, rooms);
    }

    /// The fragment or the refusal that is expected in a room that holds it.
    fn judged(&mut self, records: Records, rooms: Rooms) -> Told {
        self.tried += 1;
        let told = self.rule.told(&records.blocks, &records.text, usize::MAX);
        self.seen.list(&records, &told);
        let records = Rc::new(records);
        for room in self.rooms(rooms, &told) {
            self.call(&records, room, &told);
        }
        told
    }

    /// The same for a fragment, or a refusal, that is known.
    pub fn known(&mut self, records: &Records, known: &Told) {
        let told = self.judged(records.clone(), Rooms::Every);
        if told != *known {
            self.differ(self.tried, || report::not_known(records, known, &told));
        }
    }

    /// Compares the list that a letter is read as, in each reading: no rule of 24 is broken by one.
    pub fn letter(&mut self, letter: &[u8]) {
        for kind in READINGS {
            let Some(records) = ours::read(letter, kind) else {
                self.seen.letter(None);
                continue;
            };
            let small = self.random.once_in(SMALL_ROOMS);
            let told = self.judged(records, if small { Rooms::Around } else { Rooms::Ample });
            self.seen.letter(Some(&told));
            if told == Err(STORED_FIELD) {
                self.differ(self.tried, || report::letter_breaks(letter, kind));
            }
        }
    }

    /// Compares a text too large to be copied, in no room; its refusal is known.
    pub fn huge(&mut self, blocks: &[u32], text: &[u8], refusal: u64) {
        self.tried += 1;
        self.calls += 1;
        let told = self.rule.told(blocks, text, 0).map_or_else(u64::from, |_| 0);
        let ours = ours::html(blocks, text, &mut [])[0];
        if [told, ours] != [refusal; 2] {
            self.differ(self.tried, || report::huge(text.len(), refusal, told, ours));
        }
    }

    /// Makes the calls that wait.
    pub fn finish(&mut self) {
        if let Side::Ours = self.side {
            ours::send(&self.waiting);
        }
        for call in std::mem::take(&mut self.waiting) {
            if let Err(fault) = self.lent.made(&self.side, &call) {
                self.differ(call.number, || report::fault(&call, &fault));
            }
        }
        self.bytes = 0;
    }

    /// Sizes for a fragment, or for what is refused in whatever room.
    fn rooms(&mut self, rooms: Rooms, fragment: &Told) -> Vec<usize> {
        let enough = fragment.as_ref().map_or(self.random.below(40), Vec::len);
        let ample = enough + self.random.below(9);
        let around = [enough, enough.saturating_sub(1), self.random.below(enough + 1), 0];
        let mut sizes = vec![ample];
        match rooms {
            Rooms::Ample => {}
            Rooms::Around => sizes.extend(around),
            Rooms::Every => sizes.extend(0..=enough + 1),
        }
        sizes
    }

    /// Puts a call of our side off.
    fn call(&mut self, records: &Rc<Records>, room: usize, fragment: &Told) {
        self.calls += 1;
        let junk = self.random.draw() as u8 | 1;
        let expected = in_room(fragment, room);
        self.seen.call(&expected);
        let bytes = 4 * records.blocks.len() + records.text.len() + HEAD;
        if self.bytes + bytes > BATCH {
            self.finish();
        }
        self.bytes += bytes;
        let records = Rc::clone(records);
        self.waiting.push(Call { number: self.tried, records, room, junk, expected });
    }

    fn differ(&mut self, number: u64, told: impl FnOnce() -> String) {
        if self.differed == number {
            return;
        }
        self.differed = number;
        self.differences += 1;
        if self.to_print > 0 {
            self.to_print -= 1;
            println!("{}", told());
        }
    }
}
