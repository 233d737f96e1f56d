//! The extractor's listing, as 01's "Sample letters" and requests A4 and A5 give its form.

use common::whole::{Block, Document, Whole};
use model::{Answer, Font, Refusal, Rooms, WIDTHS};

/// Bytes of input that the extractor takes.
pub const INPUT: usize = 8_192;

/// What the extractor lends, in elements.
pub fn rooms() -> Rooms {
    let mut rooms = model::EXTRACTOR;
    rooms.iter_mut().zip(WIDTHS).for_each(|(room, width)| *room *= width);
    rooms
}

pub fn of_model(letter: &[u8]) -> Vec<u8> {
    if letter.len() > INPUT {
        return refused(Refusal::nowhere(1));
    }
    let (answer, _) = model::read(letter, model::Kind::Plain, &rooms());
    of_answer(&answer)
}

pub fn of_answer(answer: &Answer) -> Vec<u8> {
    if answer.refusal.number != 0 {
        return refused(answer.refusal);
    }
    read(answer.tokens.len(), &answer.fonts, &answer.colours, &answer.blocks, &answer.text)
}

/// The crate's reading as a listing; it has no places, so those of the model's answer are taken.
pub fn of_crate(whole: &Whole, answer: &Answer) -> Vec<u8> {
    let Document { tokens, fonts, colours, blocks, text } = match whole {
        Whole::Refused(number) => return refused(Refusal { number: *number, ..answer.refusal }),
        Whole::Read(document) => document,
    };
    let place = |i: usize| answer.fonts.get(i).map_or(0, |font| font[1]);
    let font = |(i, (key, name)): (usize, &(u32, Vec<u8>))| [*key, place(i), name.len() as u32];
    let fonts: Vec<Font> = fonts.iter().enumerate().map(font).collect();
    read(tokens.len(), &fonts, colours, blocks, text)
}

fn refused(Refusal { number, place }: Refusal) -> Vec<u8> {
    format!("{number} {place} 0 0 0 0 0\n").into_bytes()
}

fn read(tokens: usize, fonts: &[Font], colours: &[u32], blocks: &[Block], text: &[u8]) -> Vec<u8> {
    let counts = [0, tokens, fonts.len(), colours.len(), blocks.len(), text.len()];
    let mut listing = String::new();
    let mut line = |numbers: &[u32]| {
        let signed: Vec<String> = numbers.iter().map(|word| (*word as i32).to_string()).collect();
        listing.push_str(&signed.join(" "));
        listing.push('\n');
    };
    line(&counts.map(|count| count as u32));
    fonts.iter().for_each(|font| line(font));
    colours.iter().for_each(|colour| line(&[*colour]));
    blocks.iter().for_each(|block| line(block));
    let mut listing = listing.into_bytes();
    listing.extend_from_slice(text);
    listing.push(b'\n');
    listing
}
