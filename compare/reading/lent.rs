//! What is lent for one call, and what it must hold behind it.

use crate::ours::{self, Slices};
use common::bridge::WROTE_OUTSIDE;
use common::room::{Room, Source};
use common::whole::{Document, Whole};
use model::{Answer, Kind, Numbers, Rooms, ROOM_NAMES, TOKEN_WORDS};

/// The source and five rooms full of junk, between guards.
#[derive(Default)]
pub struct Lent {
    source: Source,
    words: [Room<u32>; 4],
    text: Room<u8>,
}

/// A call of our side.
pub struct Call {
    /// Which letter of the run.
    pub number: u64,
    pub letter: Vec<u8>,
    pub kind: Kind,
    pub rooms: Rooms,
    pub junk: u32,
}

/// Our answer, where it is not the one expected.
pub struct Fault {
    pub numbers: Numbers,
    pub what: String,
}

impl Lent {
    /// Makes a call that was sent ahead, and compares all that was answered and written.
    pub fn made(&mut self, call: &Call, expected: &Answer) -> Result<(), Fault> {
        let numbers = self.answered(call);
        match self.wrong(numbers, expected) {
            None => Ok(()),
            Some(what) => Err(Fault { numbers, what }),
        }
    }

    /// Makes a call that was sent ahead, and tells what the rooms hold in the crate's form, which
    /// has no places of refusals; or the numbers, if there is no such answer.
    pub fn told(&mut self, call: &Call) -> Result<Whole, Numbers> {
        let numbers = self.answered(call);
        if !self.guards_hold() {
            return Err(WROTE_OUTSIDE);
        }
        match numbers {
            [0, 0, counts @ ..] => {
                self.document(&call.letter, counts).map(Whole::Read).ok_or(numbers)
            }
            [refusal, _, 0, 0, 0, 0, 0] if refusal != 0 => Ok(Whole::Refused(refusal)),
            _ => Err(numbers),
        }
    }

    /// None if the counts or a name's place lead out of a room or the letter.
    fn document(&self, letter: &[u8], counts: [u32; 5]) -> Option<Document> {
        let [tokens, fonts, colours, blocks, text] = counts.map(|count| count as usize);
        let words = |room: usize| self.words[room].lent();
        let fonts = words(1).as_chunks().0.get(..fonts)?.iter().map(|[key, place, length]| {
            let name = letter.get(*place as usize..)?.get(..*length as usize)?;
            Some((*key, name.to_vec()))
        });
        let tokens = words(0).as_chunks::<TOKEN_WORDS>().0.get(..tokens)?.iter();
        Some(Document {
            tokens: tokens.filter_map(|token| token.first_chunk().copied()).collect(),
            fonts: fonts.collect::<Option<_>>()?,
            colours: words(2).get(..colours)?.to_vec(),
            blocks: words(3).as_chunks().0.get(..blocks)?.to_vec(),
            text: self.text.lent().get(..text)?.to_vec(),
        })
    }

    fn answered(&mut self, call: &Call) -> Numbers {
        let Call { letter, kind, rooms, junk, .. } = call;
        let junk = *junk;
        let [a, b, c, d] = &mut self.words;
        let words = [
            a.lend(rooms[0], junk),
            b.lend(rooms[1], junk),
            c.lend(rooms[2], junk),
            d.lend(rooms[3], junk),
        ];
        let text = self.text.lend(rooms[4], junk as u8);
        ours::read(*kind, self.source.lend(letter), Slices { words, text })
    }

    fn guards_hold(&self) -> bool {
        self.words.iter().all(Room::guards_hold) && self.text.guards_hold()
    }

    fn wrong(&self, numbers: Numbers, expected: &Answer) -> Option<String> {
        if !self.guards_hold() || numbers == WROTE_OUTSIDE {
            return Some("an element outside a room was written".to_string());
        }
        if numbers != expected.numbers() {
            return Some("another refusal, place or count".to_string());
        }
        for (i, front) in expected.words().into_iter().enumerate() {
            if let Some(wrong) = wrong_element(self.words[i].lent(), front) {
                return Some(format!("{} room, {wrong}", ROOM_NAMES[i]));
            }
        }
        let wrong = wrong_element(self.text.lent(), &expected.text)?;
        Some(format!("text room, {wrong}"))
    }
}

/// Says where a room is not `front` and then zeros.
pub fn wrong_element<T>(room: &[T], front: &[T]) -> Option<String>
where
    T: Copy + PartialEq + Default + std::fmt::Display,
{
    let (held, rest) = room.split_at(front.len().min(room.len()));
    if held == front && rest.iter().all(|element| *element == T::default()) {
        return None;
    }
    let expected = |i: usize| front.get(i).copied().unwrap_or_default();
    let place = (0..room.len()).find(|i| room[*i] != expected(*i))?;
    Some(format!("element {place} is {} and should be {}", room[place], expected(place)))
}
