//! 01's "Body", and A5's indents. What standard reading has of its own is in standard_body.rs.

use crate::cut::{number_of, CLOSE, IGNORABLE, LINE_BREAK, OPEN, TEXT, WORD};
use crate::{units, Block, Kind, Met, Refusal, Rooms, Token};
use crate::{BLOCKS, BLOCK_WORDS, LENGTH, PLACE, STYLE_WORDS, WIDTHS};

const DEEPEST: usize = 64;
/// The longest text room that counts.
const LONGEST: usize = 2_147_483_647;

/// A block's words before its text, by their places.
type Style = [i32; STYLE_WORDS];
const COLOUR: usize = 0;
const FONT: usize = 1;
const SIZE: usize = 2;
const FLAGS: usize = 3;
const ALIGNMENT: usize = 4;
const BEFORE: usize = 5;
const AFTER: usize = 6;
const LINE_KIND: usize = 7;
const LINE_VALUE: usize = 8;
const MULTIPLIER: usize = 9;
const TAB_WIDTH: usize = 10;
const LEFT: usize = 11;
const RIGHT: usize = 12;
const FIRST_LINE: usize = 13;

#[derive(Clone, Copy)]
struct State {
    style: Style,
    skip: i32,
}

const FRESH: State = State { style: [0, 0, 12, 0, 0, 0, 0, 0, 0, 0, 0, 0, 0, 0], skip: 1 };

pub struct Body {
    pub blocks: Vec<Block>,
    pub text: Vec<u8>,
    states: Vec<State>,
    most_blocks: usize,
    most_text: usize,
}

pub const U: u32 = number_of("u");
const PAR: u32 = number_of("par");
const EMDASH: u32 = number_of("emdash");
const LINE: u32 = number_of("line");
/// What the nine names from `emdash` to `line` add.
const SIGNS: [&str; 9] = [
    "\u{2014}", "\u{2013}", "\u{2022}", "\u{2018}", "\u{2019}", "\u{201C}", "\u{201D}", "\u{9}",
    "\u{A}",
];

impl Body {
    /// Nothing is read, and one state is held.
    pub fn new(rooms: &Rooms) -> Body {
        Body {
            blocks: Vec::new(),
            text: Vec::new(),
            states: vec![FRESH],
            most_blocks: rooms[BLOCKS] / WIDTHS[BLOCKS],
            most_text: rooms[crate::TEXT].min(LONGEST),
        }
    }

    pub fn read(
        source: &[u8],
        tokens: &[Token],
        passed: &[bool],
        kind: Kind,
        rooms: &Rooms,
        met: &mut Met,
    ) -> Result<Body, Refusal> {
        let mut body = Body::new(rooms);
        let mut at = 0;
        while at < tokens.len() {
            let mut next = at + 1;
            if !passed[at] {
                // What was passed over begins with its bracket, which ends a run.
                while is_unit(&tokens[at]) && next < tokens.len() && is_unit(&tokens[next]) {
                    next += 1;
                }
                body.step(source, &tokens[at..next], kind, met)?;
            }
            at = next;
        }
        Ok(body)
    }

    /// One token, or a run of `u`, whose first it is that finds no state.
    pub fn step(
        &mut self,
        source: &[u8],
        run: &[Token],
        kind: Kind,
        met: &mut Met,
    ) -> Result<(), Refusal> {
        let token = &run[0];
        match token[0] {
            OPEN if self.states.len() == DEEPEST => return Err(Refusal::at(16, token)),
            OPEN => {
                self.states.push(self.states.last().copied().unwrap_or(FRESH));
                return Ok(());
            }
            IGNORABLE => return Err(Refusal::at(13, token)),
            _ => {}
        }
        let state = self.states.last_mut().ok_or(Refusal::at(14, token))?;
        match *token {
            [CLOSE, ..] => _ = self.states.pop(),
            [LINE_BREAK, ..] => self.add(b"\n")?,
            [TEXT, _, _, _, place, length, ..] => {
                self.add(&source[place as usize..(place + length) as usize])?
            }
            [WORD, U, ..] => self.units(run, met)?,
            [WORD, PAR, ..] if kind != Kind::Plain => self.add(b"\n")?,
            [WORD, word @ EMDASH..=LINE, ..] => {
                self.add(SIGNS[(word - EMDASH) as usize].as_bytes())?
            }
            [_, word, present, number, ..] => {
                let set = state.word(kind, word, present == 1, number as i32);
                set.map_err(|refused| Refusal::at(refused, token))?
            }
        }
        Ok(())
    }

    fn units(&mut self, run: &[Token], met: &mut Met) -> Result<(), Refusal> {
        let skip = self.states.last().map_or(0, |state| state.skip);
        met.negative_skip |= skip < 0;
        met.large_skip |= skip > 65_535;
        let kept = units::kept(&units::units(run), skip);
        let (text, unpaired) = units::utf8(&kept);
        met.ill_formed |= unpaired;
        if text.is_empty() {
            return Ok(());
        }
        self.add(&text)
    }

    /// The skip count of the state on top.
    pub fn skip_count(&self) -> Option<i32> {
        self.states.last().map(|state| state.skip)
    }

    /// Adds text in the state on top, of which there is one.
    pub fn add(&mut self, text: &[u8]) -> Result<(), Refusal> {
        let style = self.states[self.states.len() - 1].style.map(|word| word as u32);
        let joins = self.blocks.last().is_some_and(|block| block[..STYLE_WORDS] == style);
        if !joins && self.blocks.len() == self.most_blocks {
            return Err(Refusal::nowhere(19));
        }
        if text.len() > self.most_text - self.text.len() {
            return Err(Refusal::nowhere(20));
        }
        if !joins {
            let mut block = [0; BLOCK_WORDS];
            block[..STYLE_WORDS].copy_from_slice(&style);
            block[PLACE] = self.text.len() as u32;
            self.blocks.push(block);
        }
        self.text.extend_from_slice(text);
        if let Some(block) = self.blocks.last_mut() {
            block[LENGTH] += text.len() as u32;
        }
        Ok(())
    }
}

fn is_unit(token: &Token) -> bool {
    matches!(token, [WORD, U, ..])
}

impl State {
    /// A word that adds no text; its number is 0 if it has none. The refusal is that of the word.
    fn word(&mut self, kind: Kind, word: u32, present: bool, number: i32) -> Result<(), u32> {
        let on = !present || if kind == Kind::Standard { number != 0 } else { number == 1 };
        match crate::NAMES.get(word as usize).copied().unwrap_or("") {
            "cf" => self.style[COLOUR] = fitting(number)?,
            "f" => self.style[FONT] = fitting(number)?,
            "fs" => self.style[SIZE] = fitting(number)?,
            "b" => self.flag(1, on),
            "i" => self.flag(2, on),
            "ul" => self.flag(4, on),
            "ulnone" => self.flag(4, false),
            "super" => self.flag(8, on),
            "sub" => self.flag(16, on),
            "scaps" => self.flag(32, on),
            "strike" => self.flag(64, on),
            "plain" => self.style[..=FLAGS].copy_from_slice(&FRESH.style[..=FLAGS]),
            "pard" => self.style[ALIGNMENT..].fill(0),
            "ql" => self.style[ALIGNMENT] = 0,
            "qr" => self.style[ALIGNMENT] = 1,
            "qc" => self.style[ALIGNMENT] = 2,
            "qj" => self.style[ALIGNMENT] = 3,
            "sb" => self.style[BEFORE] = number,
            "sa" => self.style[AFTER] = number,
            "sl" => self.line_spacing(number)?,
            "slmul" => self.style[MULTIPLIER] = number,
            "pardeftab" => self.style[TAB_WIDTH] = number,
            "li" | "ri" | "fi" if kind == Kind::Plain => {}
            "li" => self.style[LEFT] = number,
            "ri" => self.style[RIGHT] = number,
            "fi" => self.style[FIRST_LINE] = number,
            "uc" => self.skip = number,
            _ => {}
        }
        Ok(())
    }

    fn flag(&mut self, flag: i32, on: bool) {
        self.style[FLAGS] = self.style[FLAGS] & !flag | if on { flag } else { 0 };
    }

    fn line_spacing(&mut self, number: i32) -> Result<(), u32> {
        let (kind, value) = match number {
            1000 => (0, 0),
            _ => (1, number.checked_abs().ok_or(15_u32)?),
        };
        self.style[LINE_KIND] = kind;
        self.style[LINE_VALUE] = value;
        Ok(())
    }
}

fn fitting(number: i32) -> Result<i32, u32> {
    if (0..=65_535).contains(&number) {
        Ok(number)
    } else {
        Err(12)
    }
}
