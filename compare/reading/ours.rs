//! Our static library, called over its C interface, or over the bridge on another processor; or
//! the model in its place.

use crate::lent::Call;
use model::{Kind, Numbers};

#[cfg(archive)]
pub use library::Slices;

/// The four word rooms in their order, and the text room.
#[cfg(not(archive))]
pub struct Slices<'a> {
    pub words: [&'a mut [u32]; 4],
    pub text: &'a mut [u8],
}

#[cfg(archive)]
pub const NAME: &str = "our library";
#[cfg(bridge)]
pub const NAME: &str = "our library, under an emulator";
#[cfg(not(any(archive, bridge)))]
pub const NAME: &str = "the model in place of our library";

/// Sends calls ahead; each is then read, in the same order. Only the bridge has use for it.
#[cfg(not(bridge))]
pub fn send(_calls: &[Call]) {}

#[cfg(bridge)]
pub fn send(calls: &[Call]) {
    use common::bridge;
    let mut requests = Vec::new();
    for call in calls {
        let function = match call.kind {
            Kind::Plain => bridge::PLAIN,
            Kind::Paragraphs => bridge::PARAGRAPHS,
            Kind::Standard => bridge::STANDARD,
        };
        bridge::request(&mut requests, function, &call.letter, call.rooms, call.junk as u8);
    }
    bridge::send(&requests);
}

/// Reads a source of any length and bytes in rooms of any sizes.
#[cfg(archive)]
pub fn read(kind: Kind, source: &[u8], rooms: Slices) -> Numbers {
    match kind {
        Kind::Plain => library::read_plain(source, rooms),
        Kind::Paragraphs => library::read_paragraphs(source, rooms),
        Kind::Standard => library::read_standard(source, rooms),
    }
}

#[cfg(bridge)]
pub fn read(_kind: Kind, _source: &[u8], rooms: Slices) -> Numbers {
    common::bridge::receive(rooms.words, rooms.text)
}

#[cfg(not(any(archive, bridge)))]
pub fn read(kind: Kind, source: &[u8], rooms: Slices) -> Numbers {
    let Slices { words, text } = rooms;
    let [tokens, fonts, colours, blocks] = words.each_ref().map(|room| room.len());
    let (answer, _) = model::read(source, kind, &[tokens, fonts, colours, blocks, text.len()]);
    for (room, records) in words.into_iter().zip(answer.words()) {
        fill(room, records);
    }
    fill(text, &answer.text);
    answer.numbers()
}

/// Cuts a source of any length and bytes into a room of any size, for standard reading: refusal
/// number, its place, token count.
#[cfg(archive)]
pub fn cut(source: &[u8], room: &mut [u32]) -> [u32; 3] {
    library::cut(source, common::cut::STANDARD, room)
}

#[cfg(bridge)]
pub fn cut(source: &[u8], room: &mut [u32]) -> [u32; 3] {
    use common::{bridge, cut::STANDARD};
    let junk = room.first().map_or(0, |word| *word as u8);
    let mut request = Vec::new();
    let sizes = [room.len(), STANDARD as usize, 0, 0, 0];
    bridge::request(&mut request, bridge::CUT, source, sizes, junk);
    bridge::send(&request);
    let [refusal, place, tokens, ..] = bridge::receive([room, &mut [], &mut [], &mut []], &mut []);
    [refusal, place, tokens]
}

#[cfg(not(any(archive, bridge)))]
pub fn cut(source: &[u8], room: &mut [u32]) -> [u32; 3] {
    let cut = model::cut(source, Kind::Standard);
    match model::in_room(&cut, room.len()) {
        Ok(tokens) => {
            fill(room, tokens.as_flattened());
            [0, 0, tokens.len() as u32]
        }
        Err(model::Refusal { number, place }) => {
            fill(room, &[]);
            [number, place, 0]
        }
    }
}

#[cfg(not(any(archive, bridge)))]
fn fill<T: Copy + Default>(room: &mut [T], front: &[T]) {
    let (held, rest) = room.split_at_mut(front.len());
    held.copy_from_slice(front);
    rest.fill(T::default());
}
