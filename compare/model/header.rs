//! 01's "Header walk".

use crate::cut::{number_of, CLOSE, IGNORABLE, LINE_BREAK, OPEN, TEXT, WORD};
use crate::{Refusal, Rooms, Token, COLOURS, FONTS, WIDTHS};
use std::collections::BTreeMap;

const FONTTBL: u32 = number_of("fonttbl");
const COLORTBL: u32 = number_of("colortbl");
const STYLESHEET: u32 = number_of("stylesheet");
const F: u32 = number_of("f");
const RED: u32 = number_of("red");
const GREEN: u32 = number_of("green");
const BLUE: u32 = number_of("blue");

const MOST: usize = 256;

/// Place and length of the name, by key.
type Fonts = BTreeMap<u32, [u32; 2]>;

pub struct Header {
    /// For each token, whether the body is read without it.
    pub passed: Vec<bool>,
    pub fonts: Fonts,
    pub colours: Vec<u32>,
}

enum Group {
    Hidden,
    Fonts,
    Colours,
}

pub fn walk(source: &[u8], tokens: &[Token], rooms: &Rooms) -> Result<Header, Refusal> {
    let mut header =
        Header { passed: vec![false; tokens.len()], fonts: Fonts::new(), colours: Vec::new() };
    let most = |room: usize| MOST.min(rooms[room] / WIDTHS[room]);
    let mut at = 0;
    while at + 1 < tokens.len() {
        let Some((group, word)) = group(&tokens[at..]) else {
            at += 1;
            continue;
        };
        let end = at + length(&tokens[at..]);
        let inside = &tokens[at + 1..end];
        if !matches!(group, Group::Hidden) && inside[0][0] == LINE_BREAK {
            return Err(Refusal::at(10, word));
        }
        match group {
            Group::Hidden => {}
            Group::Fonts => header.fonts = fonts(source, inside, most(FONTS))?,
            Group::Colours => header.colours = colours(inside, most(COLOURS))?,
        }
        header.passed[at..end].fill(true);
        at = end;
    }
    Ok(header)
}

/// What the first token behind a bracket and line breaks makes of the group, and that token.
fn group(tokens: &[Token]) -> Option<(Group, &Token)> {
    if tokens[0][0] != OPEN {
        return None;
    }
    let first = tokens[1..].iter().find(|token| token[0] != LINE_BREAK)?;
    match first {
        [IGNORABLE, ..] | [WORD, STYLESHEET, 0, ..] => Some((Group::Hidden, first)),
        [WORD, FONTTBL, 0, ..] => Some((Group::Fonts, first)),
        [WORD, COLORTBL, 0, ..] => Some((Group::Colours, first)),
        _ => None,
    }
}

/// Tokens from an opening bracket to the closing one that matches, or to the end.
fn length(tokens: &[Token]) -> usize {
    let mut open = 0;
    for (place, token) in tokens.iter().enumerate() {
        match token[0] {
            OPEN => open += 1,
            CLOSE => open -= 1,
            _ => {}
        }
        if open == 0 {
            return place + 1;
        }
    }
    tokens.len()
}

fn fonts(source: &[u8], tokens: &[Token], most: usize) -> Result<Fonts, Refusal> {
    let mut fonts = Fonts::new();
    let mut key = 0;
    let mut name = [0, 0];
    for token in tokens {
        match *token {
            [WORD, F, present, number, ..] => {
                store(&mut fonts, key, name, most)?;
                if present == 0 {
                    return Err(Refusal::at(11, token));
                }
                key = number % 65_536;
            }
            [TEXT, _, _, _, place, length, ..] => name = without_semicolons(source, place, length),
            [CLOSE, ..] => store(&mut fonts, key, name, most)?,
            _ => {}
        }
    }
    Ok(fonts)
}

fn store(fonts: &mut Fonts, key: u32, name: [u32; 2], most: usize) -> Result<(), Refusal> {
    if !fonts.contains_key(&key) && fonts.len() == most {
        return Err(Refusal::nowhere(17));
    }
    fonts.insert(key, name);
    Ok(())
}

fn without_semicolons(source: &[u8], place: u32, length: u32) -> [u32; 2] {
    let text = &source[place as usize..(place + length) as usize];
    match text.iter().rposition(|byte| *byte != b';') {
        Some(last) => [place, last as u32 + 1],
        None => [0, 0],
    }
}

fn colours(tokens: &[Token], most: usize) -> Result<Vec<u32>, Refusal> {
    let mut colours = Vec::new();
    let [mut red, mut green] = [0, 0];
    for token in tokens {
        // A number that is not there is 0 in its record.
        let [WORD, word, _, number, ..] = *token else {
            continue;
        };
        if matches!(word, RED | GREEN | BLUE) && number > 255 {
            return Err(Refusal::at(12, token));
        }
        match word {
            RED => red = number,
            GREEN => green = number,
            BLUE if colours.len() == most => return Err(Refusal::nowhere(18)),
            BLUE => colours.push(65_536 * red + 256 * green + number),
            _ => {}
        }
    }
    Ok(colours)
}
