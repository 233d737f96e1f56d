//! Letters at random by a grammar of RTF, sound ones and ones with every fault that cutting knows.

use crate::cut::NAMES;
use crate::letters::NUMBERS;
use crate::random::Random;

const LETTERS: &[u8] = b"abcdefghijklmnopqrstuvwxyz";
const TEXT: &[u8] = b"abcdefghijklmnopqrstuvwxyz     ABCXYZ0123456789.,;:!?-+*'\"()/~_";
const WHITE: &[u8] = b"      \t\n\x0b\x0c\r";
const HEX: &[u8] = b"0123456789abcdefABCDEF";
#[rustfmt::skip]
const ESCAPES: &[&[u8]] = &[
    b"\\{", b"\\}", b"\\\\", b"\\\\{", b"\\\\}", b"\\\\\n", b"\\\\\\", b"\\\\\r\n",
];
const LINE_BREAKS: &[&[u8]] = &[b"\\\n", b"\\\n", b"\\\r\n", b"\\\r"];
const ODD: &[u8] = b"~-_:|0189 \t\r\x0b\x0c\x00\x1f\x7fABZ;\"[^`@";

/// How a letter is drawn.
struct Draft<'a> {
    random: &'a mut Random,
    letter: Vec<u8>,
    /// The letter is done once it has so many bytes.
    enough: usize,
    /// One piece in so many is faulty; 0 for none.
    faults: usize,
}

/// A letter of about `size` bytes; half of them have no fault.
pub fn letter(random: &mut Random, size: usize) -> Vec<u8> {
    let faults = if random.once_in(2) { 0 } else { *random.pick(&[4, 10, 40, 100]) };
    let mut draft = Draft { random, letter: Vec::new(), enough: size, faults };
    draft.space(2);
    draft.group(0);
    while draft.letter.len() < size && draft.random.below(4) > 0 {
        draft.group(0);
    }
    draft.space(2);
    draft.letter
}

impl Draft<'_> {
    fn put(&mut self, bytes: &[u8]) {
        self.letter.extend_from_slice(bytes);
    }

    fn some(&mut self, of: &[u8], least: usize, most: usize) {
        for _ in 0..self.random.between(least, most) {
            let byte = self.random.byte(of);
            self.letter.push(byte);
        }
    }

    fn faulty(&mut self) -> bool {
        self.faults > 0 && self.random.once_in(self.faults)
    }

    /// Now and then white space of up to `most` bytes.
    fn space(&mut self, most: usize) {
        if self.random.once_in(4) {
            self.some(WHITE, 1, most);
        }
    }

    fn group(&mut self, depth: usize) {
        self.put(b"{");
        for _ in 0..self.random.between(0, 12) {
            if self.letter.len() >= self.enough {
                break;
            }
            self.piece(depth);
        }
        if !self.faulty() {
            self.put(b"}");
        }
    }

    fn piece(&mut self, depth: usize) {
        if self.faulty() {
            return self.fault();
        }
        match self.random.below(20) {
            0..3 if depth < 12 => self.group(depth + 1),
            0..5 => self.some(TEXT, 1, 20),
            5..10 => self.known_word(),
            10..12 => self.unknown_word(),
            12..14 => self.hex(),
            14 => self.line_break(),
            15 => self.some(WHITE, 1, 4),
            16 => self.escape(),
            17 => self.put(b"\\*"),
            18 => self.odd(),
            _ => self.table(depth),
        }
    }

    fn known_word(&mut self) {
        let name = *self.random.pick(&NAMES);
        self.put(b"\\");
        self.put(name.as_bytes());
        self.word_end();
    }

    fn unknown_word(&mut self) {
        self.put(b"\\");
        self.some(LETTERS, 1, 1);
        match self.random.below(4) {
            0 => self.some(LETTERS, 0, 12),
            1 => self.some(TEXT, 0, 4),
            2 => self.some(b"0123456789-abz;", 0, 8),
            _ => {
                let name = *self.random.pick(&NAMES);
                self.put(name.as_bytes());
            }
        }
        if self.letter.last().is_some_and(|last| b"0123456789-".contains(last)) {
            self.put(b"q");
        }
        self.word_end();
    }

    /// A number or none, `;` or none, then what ends the word and a tail.
    fn word_end(&mut self) {
        match self.random.below(5) {
            0 | 1 => self.some(b"0123456789", 1, 4),
            2 => self.sound_number(),
            _ => {}
        }
        if self.random.once_in(6) {
            self.some(b";", 1, 2);
        }
        match self.random.below(6) {
            0 | 1 => self.put(b" "),
            2 => self.some(WHITE, 1, 4),
            3 => {
                self.put(b" ");
                self.some(TEXT, 1, 12);
            }
            _ => {}
        }
    }

    fn sound_number(&mut self) {
        let number = match self.random.below(3) {
            0 => self.random.draw() as i32,
            1 => i32::MAX - self.random.below(3) as i32,
            _ => i32::MIN + self.random.below(3) as i32,
        };
        let zeros = if self.random.once_in(3) { self.random.below(20) } else { 0 };
        let sign = if number < 0 { "-" } else { "" };
        let text = format!("{sign}{}{}", "0".repeat(zeros), number.unsigned_abs());
        self.put(text.as_bytes());
    }

    fn hex(&mut self) {
        self.put(b"\\'");
        if self.random.once_in(10) {
            self.put(b"+");
            self.some(HEX, 1, 1);
        } else {
            self.some(HEX, 2, 2);
        }
        self.space(3);
        if self.random.once_in(3) {
            self.some(TEXT, 1, 6);
        }
    }

    /// An escaped byte; after two backslashes the next special byte is glued on.
    fn escape(&mut self) {
        let escape = *self.random.pick(ESCAPES);
        self.put(escape);
        self.space(2);
        if self.random.once_in(2) {
            self.some(TEXT, 1, 6);
        }
    }

    fn line_break(&mut self) {
        let line_break = *self.random.pick(LINE_BREAKS);
        self.put(line_break);
    }

    fn odd(&mut self) {
        self.put(b"\\");
        self.some(ODD, 1, 2);
        self.some(TEXT, 0, 4);
    }

    fn table(&mut self, depth: usize) {
        match self.random.below(4) {
            0 => self.put(b"{\\fonttbl{\\f0\\fswiss Helvetica;}{\\f1\\froman\\fcharset0 Times;}}"),
            1 => self.put(b"{\\colortbl;\\red255\\green0\\blue12;\\red0\\green9\\blue255;}"),
            2 => self.put(b"{\\*\\generator Some writer 1.0;}"),
            _ if depth < 12 => {
                self.put(b"{\\stylesheet");
                self.group(depth + 1);
                self.put(b"}");
            }
            _ => self.put(b"{\\stylesheet}"),
        }
    }

    fn fault(&mut self) {
        match self.random.below(7) {
            0 => {
                self.put(b"\\'");
                self.some(b"g0f+- \t'\x0b", 0, 3);
            }
            1 => {
                self.known_word();
                let number = *self.random.pick(NUMBERS);
                self.put(number.as_bytes());
            }
            2 => {
                self.put(b"\\b");
                self.some(b"-0123456789", 1, 25);
            }
            3 => self.put(b"\\"),
            4 => self.put(b"}"),
            5 => {
                let byte = self.random.below(128) as u8;
                self.put(&[byte]);
            }
            _ => self.some(b"{}\\'*;-0au\n ", 1, 5),
        }
    }
}
