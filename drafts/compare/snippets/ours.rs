//! Our static library, called over its C interface, or over the bridge on another processor; or
//! the models in its place.

use crate::call::Told;
use model::{Kind, Rooms, EXTRACTOR, WIDTHS};

#[cfg(archive)]
pub const NAME: &str = "our library";
#[cfg(bridge)]
pub const NAME: &str = "our library, under an emulator";
#[cfg(not(any(archive, bridge)))]
pub const NAME: &str = "the model in place of our library";

#[cfg(archive)]
pub use library::{snip, snip_to, snippet};

#[cfg(bridge)]
pub use bridged::{send, snip, snip_to, snippet};

#[cfg(not(any(archive, bridge)))]
pub use by_models::{snip, snip_to, snippet};

/// Sends calls ahead; each is then made, in the same order. Only the bridge has use for it.
#[cfg(not(bridge))]
pub fn send(_calls: &[crate::call::Call]) {}

/// The extractor's rooms, in elements.
pub fn rooms() -> Rooms {
    std::array::from_fn(|i| EXTRACTOR[i] * WIDTHS[i])
}

/// Reads letters in the extractor's rooms.
pub struct Extractor {
    words: [Vec<u32>; 4],
    text: Vec<u8>,
}

impl Extractor {
    pub fn new() -> Self {
        let [a, b, c, d, text] = rooms();
        Extractor { words: [a, b, c, d].map(|size| vec![0; size]), text: vec![0; text] }
    }

    /// The text of a letter, or its refusal; letters that were sent ahead, in the same order.
    pub fn read(&mut self, letter: &[u8], kind: Kind) -> Told {
        match self.numbers(letter, kind) {
            [0, 0, .., text] => Ok(self.text[..text as usize].to_vec()),
            [refusal, place, ..] => Err([refusal, place]),
        }
    }

    /// Sends letters ahead, each for each reading. Only the bridge has use for it.
    #[cfg(not(bridge))]
    pub fn send<'a>(&mut self, _letters: impl Iterator<Item = &'a [u8]>, _kinds: &[Kind]) {}

    #[cfg(bridge)]
    pub fn send<'a>(&mut self, letters: impl Iterator<Item = &'a [u8]>, kinds: &[Kind]) {
        use common::bridge;
        let mut requests = Vec::new();
        for (letter, kind) in letters.flat_map(|l| kinds.iter().map(move |k| (l, k))) {
            let function = match kind {
                Kind::Plain => bridge::PLAIN,
                Kind::Paragraphs => bridge::PARAGRAPHS,
                Kind::Standard => bridge::STANDARD,
            };
            bridge::request(&mut requests, function, letter, rooms(), 0xAB);
        }
        bridge::send(&requests);
    }

    #[cfg(archive)]
    fn numbers(&mut self, letter: &[u8], kind: Kind) -> model::Numbers {
        let words = self.words.each_mut().map(Vec::as_mut_slice);
        let slices = library::Slices { words, text: &mut self.text };
        match kind {
            Kind::Plain => library::read_plain(letter, slices),
            Kind::Paragraphs => library::read_paragraphs(letter, slices),
            Kind::Standard => library::read_standard(letter, slices),
        }
    }

    #[cfg(bridge)]
    fn numbers(&mut self, _letter: &[u8], _kind: Kind) -> model::Numbers {
        let words = self.words.each_mut().map(Vec::as_mut_slice);
        common::bridge::receive(words, &mut self.text)
    }

    #[cfg(not(any(archive, bridge)))]
    fn numbers(&mut self, letter: &[u8], kind: Kind) -> model::Numbers {
        let sizes = [0, 1, 2, 3].map(|i: usize| self.words[i].len());
        let [a, b, c, d] = sizes;
        let (answer, _) = model::read(letter, kind, &[a, b, c, d, self.text.len()]);
        self.text[..answer.text.len()].copy_from_slice(&answer.text);
        answer.numbers()
    }
}

/// The answers to calls that were sent ahead.
#[cfg(bridge)]
mod bridged {
    use crate::call::{Asked, Call, Numbers};
    use common::bridge;

    pub fn send(calls: &[Call]) {
        let mut requests = Vec::new();
        for call in calls {
            let (function, [one, two]) = match &call.asked {
                Asked::Snip(_) => (bridge::SNIP, [0, 0]),
                Asked::SnipTo(_, most) => {
                    (bridge::SNIP_TO, [*most & 0xFFFF_FFFF, (*most as u64 >> 32) as usize])
                }
                Asked::Snippet(_, reading) => (bridge::SNIPPET, [*reading as usize, 0]),
            };
            let sizes = [one, two, 0, 0, call.room];
            bridge::request(&mut requests, function, call.asked.given(), sizes, call.junk);
        }
        bridge::send(&requests);
    }

    fn received(room: &mut [u8]) -> Numbers {
        let none = [&mut [][..], &mut [], &mut [], &mut []];
        let [refusal, place, bytes, high, ..] = bridge::receive(none, room).map(u64::from);
        [refusal, place, high << 32 | bytes]
    }

    pub fn snip(_text: &[u8], room: &mut [u8]) -> Numbers {
        received(room)
    }

    pub fn snip_to(_text: &[u8], _most: usize, room: &mut [u8]) -> Numbers {
        received(room)
    }

    pub fn snippet(_letter: &[u8], _reading: u32, room: &mut [u8]) -> Numbers {
        received(room)
    }
}

#[cfg(not(any(archive, bridge)))]
mod by_models {
    use super::Extractor;
    use crate::call::{in_room, numbers, Numbers, Told};
    use crate::letters::LONGEST;
    use crate::rule;
    use common::cut;
    use model::Kind;

    pub fn snip(text: &[u8], room: &mut [u8]) -> Numbers {
        snip_to(text, rule::MOST, room)
    }

    pub fn snip_to(text: &[u8], most: usize, room: &mut [u8]) -> Numbers {
        put(&Ok(rule::of_bytes(text, most)), room)
    }

    pub fn snippet(letter: &[u8], reading: u32, room: &mut [u8]) -> Numbers {
        let kind = match reading {
            cut::PARAGRAPHS => Kind::Paragraphs,
            cut::STANDARD => Kind::Standard,
            _ => Kind::Plain,
        };
        let read = match letter.len() {
            0..=LONGEST => Extractor::new().read(letter, kind),
            _ => Err([cut::TOO_LONG, 0]),
        };
        put(&read.map(|text| rule::of_bytes(&text, rule::MOST)), room)
    }

    fn put(snippet: &Told, room: &mut [u8]) -> Numbers {
        let told = in_room(snippet, room.len());
        room.fill(0);
        if let Ok(snippet) = &told {
            room[..snippet.len()].copy_from_slice(snippet);
        }
        numbers(&told)
    }
}
