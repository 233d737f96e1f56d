//! Pairs of letters that differ only inside hidden groups.

use crate::veil;
use common::cut::{NAMES, SOURCE_LIMIT};
use common::random::Random;
use common::{fragments, grammar, reading_grammar};
use model::Kind;

/// What stands in a hole while it is not yet known whether the walk reaches it.
const MARKER: &[u8] = b"{\\*\\hole}";
/// The place of its unknown word.
const WORD: usize = 3;

/// What may stand between a brace and the mark: line breaks, and what gives no token.
#[rustfmt::skip]
const FRONTS: [&str; 14] = [
    "", "", "", "", "\\\n", "\\\n\\\n", "\n", " \t\n", "\\~", "\\\n \n\\-x", "\\\r", "\\\r\n",
    "\\\r \n\r", "\r\\\r\n\n\\\r\\\n",
];
#[rustfmt::skip]
const MARKS: [&str; 8] = [
    "\\*", "\\*", "\\*\\gen ", "\\*lost", "\\**", "\\stylesheet", "\\stylesheet ", "\\stylesheet;",
];
/// What would tell if it were read.
#[rustfmt::skip]
const SECRETS: [&str; 70] = [
    "\\{", "\\}", "\\\\ ", "\\\\a", "\\\\{", "\\\\}", "\\\\\\}x", "\\{\\{", "\\'7d", "\\'7B",
    "\\'5c", "\\'+f", "\\u125 ", "\\u8212 ", "\\u-10179 ", "\\u-8704 ", "\\u8212 \\'97",
    "\\u70000 ", "\\u ", "\\uc ", "\\uc0 ", "\\uc2 ", "\\uc-1 \\u65 ", "\\uc2147483647 \\u65 ",
    "\\par ", "\\par", "\\line ", "\\tab ", "\\b ", "\\plain ", "\\pard ", "\\qc ", "\\fs7 ",
    "\\li7 ", "\\ri-7 ", "\\fi-2147483648 ",
    "\\f1 ", "\\f70000 ", "\\cf-1 ", "\\sl-2147483648 ", "\\*", "\\fonttbl ", "\\colortbl ",
    "\\stylesheet ", "{\\fonttbl{\\f5 X;}}", "{\\*{\\fonttbl{\\f0 X;}}}", "{\\fonttbl\\f}",
    "{\\\n\\fonttbl{\\f1 X;}}", "{\\colortbl;\\red256\\blue9;}", "{\\colortbl\\blue7;}",
    "{\\stylesheet{\\s1 a}}", "{\\b bold}", "{}", "\\\n", "\n", " ", "\x0b", "\\~", "\\ ", "a;b",
    "some text", "\\\r", "\\\r\n", "\\\ra", "\\\r\na", "\\\\\r", "\\\\\r\n", "\r\n", "\\\r\\}",
    "{\\\r\\fonttbl{\\f1 X;}}",
];

pub struct Pair {
    pub letters: [Vec<u8>; 2],
    pub holes: usize,
    /// Bytes of the longest group in a hole.
    pub largest: usize,
}

/// A letter in parts: between each two stands a hole.
struct Holed<'a> {
    parts: Vec<Vec<u8>>,
    /// For each hole, whether the walk reaches it in each of the readings. The others hold the
    /// marker in both letters.
    reached: Vec<bool>,
    kinds: &'a [Kind],
}

/// A pair from the first letter of `letters` that can have one, with holes at random.
pub fn draw(random: &mut Random, letters: fn(&mut Random) -> Vec<u8>, kinds: &[Kind]) -> Pair {
    loop {
        let letter = letters(random);
        let places = places(random, &letter);
        if let Some(pair) = with_holes(random, &letter, &places, kinds) {
            return pair;
        }
    }
}

/// A pair from a letter with holes at these places, ascending, whose premise holds in each of the
/// readings; none if the letter with its holes is not cut, if no hole is reached or if both letters
/// come out the same.
pub fn with_holes(
    random: &mut Random,
    letter: &[u8],
    places: &[usize],
    kinds: &[Kind],
) -> Option<Pair> {
    let holed = Holed::new(letter, places, kinds)?;
    let holes = holed.reached.iter().filter(|reached| **reached).count();
    let room = SOURCE_LIMIT.checked_sub(holed.bytes())? / holes;
    let fills = [(); 2].map(|()| holed.fills(random, room));
    let largest = fills.iter().flatten().map(Vec::len).max().unwrap_or(0);
    let letters = fills.map(|fills| holed.filled(&fills));
    (letters[0] != letters[1]).then_some(Pair { letters, holes, largest })
}

impl<'a> Holed<'a> {
    fn new(letter: &[u8], places: &[usize], kinds: &'a [Kind]) -> Option<Self> {
        let mut parts = Vec::new();
        let mut start = 0;
        for end in places.iter().copied().chain([letter.len()]) {
            parts.push(letter[start..end].to_vec());
            start = end;
        }
        let mut holed = Holed { parts, reached: vec![true; places.len()], kinds };
        kinds.iter().try_for_each(|kind| holed.find_reached(*kind))?;
        holed.reached.contains(&true).then_some(holed)
    }

    /// Asks where the walk finds the markers; none if the letter is not cut.
    fn find_reached(&mut self, kind: Kind) -> Option<()> {
        let holes = self.reached.len();
        let tokens = veil::tokens(&self.filled(&vec![MARKER.to_vec(); holes]), kind)?;
        let found: Vec<usize> = veil::hidden_groups(&tokens)
            .into_iter()
            .filter(|group| group.len() == 4)
            .map(|group| tokens[group.start + 2][4] as usize)
            .collect();
        let mut place = 0;
        for (part, reached) in self.parts.iter().zip(&mut self.reached) {
            place += part.len();
            *reached &= found.contains(&(place + WORD));
            place += MARKER.len();
        }
        Some(())
    }

    /// Bytes of the letter with the marker in each hole.
    fn bytes(&self) -> usize {
        self.parts.iter().map(|part| part.len() + MARKER.len()).sum()
    }

    fn fills(&self, random: &mut Random, room: usize) -> Vec<Vec<u8>> {
        let mut fill = |reached: &bool| match reached {
            true => hidden_group(random, room, self.kinds),
            false => MARKER.to_vec(),
        };
        self.reached.iter().map(|reached| fill(reached)).collect()
    }

    fn filled(&self, fills: &[Vec<u8>]) -> Vec<u8> {
        let mut letter = self.parts[0].clone();
        for (fill, part) in fills.iter().zip(&self.parts[1..]) {
            letter.extend_from_slice(fill);
            letter.extend_from_slice(part);
        }
        letter
    }
}

/// Places for one to six holes, ascending.
pub fn places(random: &mut Random, letter: &[u8]) -> Vec<usize> {
    let holes = random.between(1, 6);
    let mut places: Vec<usize> = (0..holes).map(|_| place(random, letter)).collect();
    places.sort();
    places
}

/// A place for a hole, in half of the draws one where a slice may start.
fn place(random: &mut Random, letter: &[u8]) -> usize {
    let place = random.below(letter.len() + 1);
    if random.once_in(2) {
        return place;
    }
    let special = letter[place..].iter().position(|byte| b"{}\\\n".contains(byte));
    special.map_or(letter.len(), |more| place + more)
}

/// A group that is hidden wherever the walk reaches it, of at most `room` bytes.
fn hidden_group(random: &mut Random, room: usize, kinds: &[Kind]) -> Vec<u8> {
    // Not each front is one in standard reading.
    let mut inside = loop {
        let inside = [*random.pick(&FRONTS), *random.pick(&MARKS)].concat().into_bytes();
        if veil::is_hidden(&closed(&inside), kinds) {
            break inside;
        }
    };
    let mut pieces = random.below(8);
    if random.once_in(200) {
        pieces += 40;
    }
    let mut group = closed(&inside);
    for _ in 0..pieces {
        let start = inside.len();
        secret(random, &mut inside);
        let more = closed(&inside);
        if more.len() <= room && veil::is_hidden(&more, kinds) {
            group = more;
        } else {
            inside.truncate(start);
        }
    }
    if group.len() > room {
        return MARKER.to_vec();
    }
    group
}

fn closed(inside: &[u8]) -> Vec<u8> {
    [b"{".as_slice(), inside, b"}"].concat()
}

/// Adds a piece of any kind; the caller takes back what opens, closes or glues too much.
fn secret(random: &mut Random, inside: &mut Vec<u8>) {
    match random.below(64) {
        0..40 => inside.extend_from_slice(random.pick(&SECRETS).as_bytes()),
        40..46 => word(random, inside),
        46..52 => inside.extend(reading_grammar::letter(random, 40)),
        52..56 => inside.extend(fragments::soup(random, 10)),
        56..60 => inside.extend(grammar::letter(random, 30)),
        60 => nested(random, inside),
        61 if random.once_in(8) => repeated(random, inside),
        _ => inside.push(random.below(128) as u8),
    }
}

fn word(random: &mut Random, inside: &mut Vec<u8>) {
    let number = random.pick(&["", "0", "1", "-1", "65536", "-2147483648", "2147483647"]);
    let name = random.pick(&NAMES);
    inside.extend_from_slice(format!("\\{name}{number} ").as_bytes());
}

/// Groups in groups, on both sides of the most states that the body holds.
fn nested(random: &mut Random, inside: &mut Vec<u8>) {
    let deep = random.between(50, 300);
    let open = random.pick(&["{", "{\\*", "{\\b ", "{\\fonttbl", "{\\u65 "]);
    inside.extend_from_slice(open.repeat(deep).as_bytes());
    secret(random, inside);
    inside.extend_from_slice("}".repeat(deep).as_bytes());
}

fn repeated(random: &mut Random, inside: &mut Vec<u8>) {
    let piece = random.pick(&SECRETS);
    let bytes = if random.once_in(8) { 30_000 } else { 2_000 };
    inside.extend_from_slice(piece.repeat(bytes / piece.len()).as_bytes());
}
