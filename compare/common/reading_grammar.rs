//! Letters at random for the whole reading: mostly sound, so that most reach the body's end.
//! Skip counts stay at or below 65,535, since the crate sets aside as many units.

use crate::cut::NAMES;
use crate::fragments::TELLING;
use crate::letters::NUMBERS;
use crate::random::Random;

const TEXT: &[u8] = b"abcdefghijklmnopqrstuvwxyz     ABC0129.,;:!?-+*'\"()/~";
const HEX: &[u8] = b"0123456789abcdefABCDEF";
const FLAGS: [&str; 8] = ["b", "i", "ul", "ulnone", "super", "sub", "scaps", "strike"];
const FLAG_NUMBERS: [&str; 6] = ["", "", "0", "1", "2", "-1"];
const SIZES: [&str; 3] = ["cf", "f", "fs"];
const SIZE_NUMBERS: [&str; 8] = ["", "0", "1", "2", "12", "24", "255", "65535"];
const MEASURES: [&str; 5] = ["sb", "sa", "sl", "slmul", "pardeftab"];
const MEASURE_NUMBERS: [&str; 10] =
    ["", "0", "1", "-1", "240", "-240", "1000", "-1000", "2147483647", "-2147483647"];
const INDENTS: [&str; 3] = ["li", "ri", "fi"];
const INDENT_NUMBERS: [&str; 9] =
    ["", "0", "0", "1", "-1", "720", "-360", "2147483647", "-2147483648"];
#[rustfmt::skip]
const BARE: [&str; 18] = [
    "plain", "pard", "ql", "qr", "qc", "qj", "par", "par", "line", "tab", "emdash", "endash",
    "bullet", "lquote", "rquote", "ldblquote", "rdblquote", "sectd",
];
const UNITS: [&str; 12] =
    ["65", "233", "255", "256", "8212", "-3913", "-1", "0", "65535", "2048", "2047", "128"];
const NO_UNITS: [&str; 5] = ["", "65536", "-65537", "2147483647", "-2147483648"];
const SKIPS: [&str; 10] = ["", "0", "1", "1", "2", "2", "3", "10", "1000", "65535"];
const LINE_BREAKS: [&str; 4] = ["\\\n", "\\\n", "\\\r\n", "\\\r"];
#[rustfmt::skip]
const HIDDEN: [&str; 7] = [
    "{\\*", "{\\*\\gen ", "{\\stylesheet", "{\\\n\\*", "{\\\n\\stylesheet ", "{\\\r\\*",
    "{\\\r\n\\stylesheet ",
];
const KEYS: [&str; 9] = ["0", "1", "1", "2", "3", "65535", "65536", "-1", "70001"];
const FAMILIES: [&str; 6] =
    ["", "\\fswiss", "\\fcharset0", "\\froman\\fcharset2", "\\\n", "\\\r\n"];
const BROKEN_TABLES: [&str; 4] = [
    "{\\\n\\fonttbl{\\f0 A;}}",
    "{\\\r\n\\fonttbl{\\f0 A;}}",
    "{\\\n\\colortbl;}",
    "{\\\r\\colortbl;}",
];
const FONTS: [&str; 6] = ["", " Arial;", " Times New Roman;", " ;;", " A;B;", "x"];
/// What a letter may hold and seldom does.
#[rustfmt::skip]
const ODDITIES: [&str; 24] = [
    "\n", " ", "\\{", "\\}", "\\\\", "\\\\{", "\\~", "\\-", "\\ ", "\\zz ", "\\fonttbl1 ",
    "\\fonttbl ", "\\colortbl ", "\\stylesheet ", "\\red1 ", "\\blue ", "\\par1 ", "\x0b",
    "\\line7 ", "{\\fonttbl1 A;}", "{\\colortbl0 \\blue1 }", "{\\stylesheet2 a}", "\r\n",
    "\\\\\r\n",
];
/// The three things outside 01's equality with the crate.
const OUTSIDE: [&str; 5] =
    ["\\sl-2147483648 ", "\\uc-1 \\u65 \\'42", "\\uc-2 \\u65 ", "\\u-10179 ", "\\u-8704 a"];

struct Draft<'a> {
    random: &'a mut Random,
    letter: Vec<u8>,
    enough: usize,
    /// One piece in so many is faulty; 0 for none.
    faults: usize,
}

/// A letter of about `size` bytes; half of them have no fault.
pub fn letter(random: &mut Random, size: usize) -> Vec<u8> {
    let faults = if random.once_in(2) { 0 } else { *random.pick(&[5, 20, 60, 200]) };
    let mut draft = Draft { random, letter: Vec::new(), enough: size, faults };
    draft.put("{");
    if draft.random.once_in(2) {
        draft.put("\\rtf1\\ansi");
    }
    for _ in 0..draft.random.below(3) {
        draft.table();
    }
    while draft.letter.len() < size && !draft.random.once_in(40) {
        draft.piece(1);
    }
    draft.put("}");
    if draft.random.once_in(16) {
        draft.behind();
    }
    draft.letter
}

impl Draft<'_> {
    fn put(&mut self, text: &str) {
        self.letter.extend_from_slice(text.as_bytes());
    }

    fn pick(&mut self, from: &[&'static str]) -> &'static str {
        *self.random.pick(from)
    }

    fn any(&mut self, from: &[&'static str]) {
        let text = self.pick(from);
        self.put(text);
    }

    fn word(&mut self, name: &str, number: &str) {
        let end = *self.random.pick(&["", "", " ", " ", "\n", ";", "; "]);
        self.put(&format!("\\{name}{number}{end}"));
    }

    fn text(&mut self, most: usize) {
        // A text is glued to a word before it unless a space ends the word.
        if self.letter.last().is_some_and(u8::is_ascii_alphanumeric) {
            self.put(" ");
        }
        for _ in 0..self.random.between(1, most) {
            let byte = self.random.byte(TEXT);
            self.letter.push(byte);
        }
    }

    fn piece(&mut self, depth: usize) {
        if self.faults > 0 && self.random.once_in(self.faults) {
            return self.fault();
        }
        match self.random.below(26) {
            0..3 if depth < 40 => self.group(depth),
            0..7 => self.text(12),
            7..10 => self.style(&FLAGS, &FLAG_NUMBERS),
            10 | 11 => self.style(&SIZES, &SIZE_NUMBERS),
            12 | 13 => self.style(&MEASURES, &MEASURE_NUMBERS),
            14 | 15 => self.style(&INDENTS, &INDENT_NUMBERS),
            16..19 => self.style(&BARE, &["", "", "", "1"]),
            19..22 => self.units(),
            22 => self.any(&LINE_BREAKS),
            23 => self.hidden(depth),
            24 if self.random.once_in(4) => self.table(),
            24 => self.style(&NAMES, &["", "1"]),
            _ => self.any(&ODDITIES),
        }
    }

    fn group(&mut self, depth: usize) {
        let nested = if self.random.once_in(60) { self.random.between(50, 66) } else { 1 };
        self.put(&"{".repeat(nested));
        for _ in 0..self.random.between(0, 8) {
            if self.letter.len() >= self.enough {
                break;
            }
            self.piece(depth + nested);
        }
        self.put(&"}".repeat(nested));
    }

    fn style(&mut self, names: &[&'static str], numbers: &[&'static str]) {
        let (name, number) = (self.pick(names), self.pick(numbers));
        self.word(name, number);
    }

    /// A run of units, with all that may stand between two of them.
    fn units(&mut self) {
        if self.random.once_in(3) {
            self.style(&["uc"], &SKIPS);
        }
        for _ in 0..self.random.between(1, 6) {
            match self.random.below(12) {
                0..4 => self.style(&["u"], &UNITS),
                4..8 => self.hex(),
                8 => self.put("\\u-10179 \\u-8704 "),
                9 => {
                    let number = self.random.below(55_296).to_string();
                    self.word("u", &number);
                }
                10 => self.style(&["u"], &NO_UNITS),
                _ => self.put("{\\*\\x}"),
            }
        }
    }

    fn hex(&mut self) {
        self.put("\\'");
        for _ in 0..2 {
            let byte = self.random.byte(HEX);
            self.letter.push(byte);
        }
    }

    fn hidden(&mut self, depth: usize) {
        self.any(&HIDDEN);
        if depth < 40 && self.random.once_in(2) {
            self.group(depth + 1);
        }
        self.put("}");
    }

    fn table(&mut self) {
        if self.random.once_in(2) {
            return self.colours();
        }
        self.put("{\\fonttbl");
        for _ in 0..self.random.below(5) {
            let open = self.random.once_in(2);
            self.put(if open { "{" } else { "" });
            self.style(&["f"], &KEYS);
            self.any(&FAMILIES);
            self.any(&FONTS);
            self.put(if open { "}" } else { "" });
        }
        self.put("}");
    }

    fn colours(&mut self) {
        self.put("{\\colortbl;");
        for _ in 0..self.random.below(12) {
            self.style(&["red", "green", "blue", "blue"], &["", "0", "1", "46", "200", "255"]);
        }
        self.put("}");
    }

    fn fault(&mut self) {
        match self.random.below(12) {
            0 => self.put("\\*"),
            1 | 2 => self.any(&BROKEN_TABLES),
            3 => self.put("{\\fonttbl{\\f0 A;}{\\f B;}}"),
            4 => self.put("{\\colortbl\\red256\\blue0;}"),
            5 => self.style(&SIZES, &["-1", "65536", "2147483647", "-2147483648"]),
            6 => self.put("}"),
            7 => self.put("{"),
            8 => self.style(&NAMES, NUMBERS),
            9 => self.put("\\'4g"),
            10 => self.any(&OUTSIDE),
            _ => self.any(TELLING),
        }
    }

    /// Closing and opening brackets, and pieces, with no state left or a fresh one.
    fn behind(&mut self) {
        for _ in 0..self.random.between(1, 4) {
            match self.random.below(4) {
                0 | 1 => self.put("}"),
                2 => self.put("{"),
                _ => self.piece(1),
            }
        }
        self.put("}");
    }
}
