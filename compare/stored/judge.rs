//! A list, or records, on both sides; and there and back again.

use crate::call::{by_codec, Answer, Asked, Call, Lent, Records};
use crate::seen::{Column, Seen};
use crate::{ours, report, rooms};
use codec::BLOCK_WORDS;
use common::bridge;
use common::random::Random;

/// One in so many is also tried in small rooms, so many times.
const SMALL_ROOMS: usize = 4;
const TIMES: usize = 4;
/// Bytes of calls that may wait; without the bridge nothing is gained by waiting.
const BATCH: usize = if cfg!(bridge) { bridge::BATCH } else { 0 };
/// Bytes of a request in front of what is given.
const HEAD: usize = 32;

pub struct Judge {
    /// Lists, and records to be written.
    pub tried: u64,
    pub calls: u64,
    pub differences: u64,
    pub seen: Seen,
    /// How many differences may still be printed.
    pub to_print: u32,
    random: Random,
    lent: Lent,
    /// Calls of our side that wait to be sent together, and their bytes.
    waiting: Vec<Call>,
    bytes: usize,
    /// The last one tried with a difference: it counts once.
    differed: u64,
}

impl Judge {
    pub fn new(seed: u64) -> Self {
        Judge {
            tried: 0,
            calls: 0,
            differences: 0,
            seen: Seen::default(),
            to_print: 0,
            random: Random::new(seed),
            lent: Lent::default(),
            waiting: Vec::new(),
            bytes: 0,
            differed: 0,
        }
    }

    /// Compares a list of any bytes, in large rooms and now and then in small ones. What our side
    /// says to it may be told only with `finish`.
    pub fn list(&mut self, list: &[u8]) {
        let [blocks, text] = self.judged(list);
        if self.random.once_in(SMALL_ROOMS) {
            for _ in 0..TIMES {
                let rooms = rooms::tight(&mut self.random, blocks, text);
                self.call(Column::ReadSmall, Asked::Read(list.to_vec(), rooms));
            }
        }
    }

    /// The same, in rooms of every size.
    pub fn list_in_every_size(&mut self, list: &[u8]) {
        let [blocks, text] = self.judged(list);
        for rooms in rooms::every_size(blocks, text) {
            self.call(Column::ReadSmall, Asked::Read(list.to_vec(), rooms));
        }
    }

    /// The same for a list whose refusal is known.
    pub fn known(&mut self, list: &[u8], refusal: u32) {
        self.judged(list);
        let told = by_codec::check(list);
        if told != refusal {
            let asked = Asked::Check(list.to_vec());
            self.differ(self.tried, || report::not_known(&asked, refusal, u64::from(told)));
        }
    }

    /// Compares a call whose refusal is known.
    pub fn known_in_rooms(&mut self, asked: &Asked, refusal: u32) {
        self.tried += 1;
        let column = match asked {
            Asked::Write(..) => Column::WriteSmall,
            _ => Column::ReadSmall,
        };
        let told = self.call(column, asked.clone()).numbers[0];
        if told != u64::from(refusal) {
            self.differ(self.tried, || report::not_known(asked, refusal, told));
        }
    }

    /// Compares the check of a list that is too large to be copied.
    pub fn huge(&mut self, list: &[u8]) {
        self.tried += 1;
        self.calls += 1;
        let (ours, expected) = (ours::check(list), by_codec::check(list));
        self.seen.call(Column::Check, u64::from(expected));
        if ours != expected {
            self.differ(self.tried, || report::huge(list.len(), expected, ours));
        }
    }

    /// The same for a text to be written, in no room; its refusal is known.
    pub fn huge_text(&mut self, blocks: &[u32], text: &[u8], refusal: u64) {
        self.tried += 1;
        self.calls += 1;
        self.seen.call(Column::WriteSmall, refusal);
        let ours = ours::write(blocks, text, &mut [])[0];
        let codec = by_codec::write(blocks, text, &mut [])[0];
        if [ours, codec] != [refusal; 2] {
            self.differ(self.tried, || report::huge_text(text.len(), refusal, codec, ours));
        }
    }

    /// Compares the writing of records good or bad, and now and then in small rooms. What is
    /// written is read back.
    pub fn records(&mut self, records: &Records) {
        let size = self.written(records);
        if self.random.once_in(SMALL_ROOMS) {
            for _ in 0..TIMES {
                let room = rooms::around(&mut self.random, size, 9);
                self.call(Column::WriteSmall, Asked::Write(records.clone(), room));
            }
        }
    }

    /// The same, in rooms of every size.
    pub fn records_in_every_size(&mut self, records: &Records) {
        for room in 0..=self.written(records) + 2 {
            self.call(Column::WriteSmall, Asked::Write(records.clone(), room));
        }
    }

    /// The same for records that a list holds, which is known.
    pub fn good_records(&mut self, records: &Records) {
        self.records(records);
        let list = records.list();
        let mut room = vec![0; list.len()];
        let same = codec::write(&records.blocks, &records.text, &mut room) == Ok(list.len());
        if !same || room != list {
            self.differ(self.tried, || report::not_written(records, &list));
        }
    }

    /// The same for records whose refusal is known, whatever the room.
    pub fn refused_records(&mut self, records: &Records, refusal: u32) {
        self.records(records);
        for room in [0, rooms::most(records)] {
            let asked = Asked::Write(records.clone(), room);
            let told = asked.expected(0).numbers[0];
            if told != u64::from(refusal) {
                self.differ(self.tried, || report::not_known(&asked, refusal, told));
            }
        }
    }

    /// Makes the calls that wait.
    pub fn finish(&mut self) {
        ours::send(&self.waiting);
        for call in std::mem::take(&mut self.waiting) {
            if let Err(fault) = self.lent.made(&call) {
                self.differ(call.number, || report::fault(&call, &fault));
            }
        }
        self.bytes = 0;
    }

    /// The blocks and the bytes of text that a list needs room for: a guess, if it is refused.
    fn judged(&mut self, list: &[u8]) -> [usize; 2] {
        self.tried += 1;
        let check = self.call(Column::Check, Asked::Check(list.to_vec()));
        let ample = Asked::Read(list.to_vec(), rooms::ample(list)).expected(0);
        if check.numbers[0] != ample.numbers[0] {
            self.differ(self.tried, || report::check_is_not_read(list, &check, &ample));
        }
        if ample.numbers[0] != 0 {
            let [words, bytes] = rooms::ample(list);
            self.call(Column::Read, Asked::Read(list.to_vec(), [words, bytes]));
            return [self.random.below(4), self.random.below(12)];
        }
        let [_, blocks, text] = ample.numbers.map(|number| number as usize);
        self.seen.list(list.len(), blocks, text);
        let rooms = rooms::large(&mut self.random, blocks, text);
        self.call(Column::Read, Asked::Read(list.to_vec(), rooms));
        self.back_to(list, &ample);
        [blocks, text]
    }

    /// What a list was read as is written back as the same bytes.
    fn back_to(&mut self, list: &[u8], read: &Answer) {
        let records = records_of(read);
        let room = list.len() + self.random.below(4);
        let written = self.call(Column::Write, Asked::Write(records, room));
        if written.numbers[0] != 0 || written.bytes[..list.len()] != *list {
            self.differ(self.tried, || report::list_not_back(list, read, &written));
        }
    }

    /// The bytes that records need room for: a guess, if they are refused.
    fn written(&mut self, records: &Records) -> usize {
        self.tried += 1;
        let room = rooms::most(records) + self.random.below(4);
        let ample = Asked::Write(records.clone(), room).expected(0);
        if ample.numbers[0] != 0 {
            self.call(Column::Write, Asked::Write(records.clone(), room));
            return self.random.below(30);
        }
        let size = ample.numbers[1] as usize;
        let room = size + self.random.below(4);
        self.call(Column::Write, Asked::Write(records.clone(), room));
        self.back_from(records, &ample.bytes[..size]);
        size
    }

    /// What records were written as is accepted, and read back as the same.
    fn back_from(&mut self, records: &Records, list: &[u8]) {
        self.call(Column::Check, Asked::Check(list.to_vec()));
        let rooms = [records.blocks.len(), records.text.len()];
        let read = self.call(Column::Read, Asked::Read(list.to_vec(), rooms));
        if read.numbers[0] != 0 || records_of(&read) != *records {
            self.differ(self.tried, || report::records_not_back(records, list, &read));
        }
    }

    /// Puts a call of our side off, and gives the answer expected.
    fn call(&mut self, column: Column, asked: Asked) -> Answer {
        self.calls += 1;
        let junk = self.random.draw() as u32 | 0x8101_0101;
        let expected = asked.expected(junk);
        self.seen.call(column, expected.numbers[0]);
        let bytes = asked.size() + HEAD;
        if self.bytes + bytes > BATCH {
            self.finish();
        }
        self.bytes += bytes;
        let answer = expected.clone();
        self.waiting.push(Call { number: self.tried, asked, expected, junk });
        answer
    }

    fn differ(&mut self, number: u64, told: impl FnOnce() -> String) {
        if self.differed == number {
            return;
        }
        self.differed = number;
        self.differences += 1;
        if self.to_print > 0 {
            self.to_print -= 1;
            println!("{}", told());
        }
    }
}

/// What stands in front of the zeros.
fn records_of(read: &Answer) -> Records {
    let [_, blocks, text] = read.numbers.map(|number| number as usize);
    Records {
        blocks: read.words[..blocks * BLOCK_WORDS].to_vec(),
        text: read.bytes[..text].to_vec(),
    }
}
