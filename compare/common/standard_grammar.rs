//! Letters at random for standard reading: mostly sound, with tables, ignored groups, skipping of
//! every sort, groups deeper than the states that are held, and numbers at the ends of 32 bits.

use crate::cut::NAMES;
use crate::letters::NUMBERS;
use crate::random::Random;
use crate::standard_letters::{ALPHABETS, TELLING};

const TEXT: &[u8] = b"abcdefghijklmnopqrstuvwxyz     \t\x0b\x0cABC0129.,;:!?-+*'\"()/~_\x00\x7f";
const HEX: &[u8] = b"0123456789abcdefABCDEF";
/// What may stand behind a word: much of it stays as text.
#[rustfmt::skip]
const ENDS: [&str; 16] = [
    "", "", "", " ", " ", " ", "  ", "\n", "\r\n", "\r", "\t", ";", "-", "+1", "- 1", " \n",
];
const RAW: [&str; 5] = ["\n", "\r", "\r\n", "\n\n", "\r\r\n"];
const FLAGS: [&str; 8] = ["b", "i", "ul", "ulnone", "super", "sub", "scaps", "strike"];
const FLAG_NUMBERS: [&str; 9] = ["", "", "0", "-0", "1", "2", "-1", "2147483647", "-2147483648"];
const SIZES: [&str; 3] = ["cf", "f", "fs"];
const SIZE_NUMBERS: [&str; 7] = ["", "0", "1", "12", "255", "65535", "0065535"];
#[rustfmt::skip]
const MEASURES: [&str; 8] = ["sb", "sa", "sl", "slmul", "pardeftab", "li", "ri", "fi"];
const MEASURE_NUMBERS: [&str; 10] =
    ["", "0", "0", "1", "-1", "240", "1000", "-1000", "2147483647", "-2147483647"];
#[rustfmt::skip]
const BARE: [&str; 18] = [
    "plain", "pard", "ql", "qr", "qc", "qj", "par", "par", "line", "tab", "emdash", "endash",
    "bullet", "lquote", "rquote", "ldblquote", "rdblquote", "sectd",
];
#[rustfmt::skip]
const UNITS: [&str; 16] = [
    "65", "233", "255", "256", "8212", "8217", "-3913", "-1", "0", "65535", "2047", "-10179",
    "-8704", "-10179", "-8704", "128",
];
const NO_UNITS: [&str; 5] = ["", "65536", "-65537", "2147483647", "-2147483648"];
#[rustfmt::skip]
const SKIPS: [&str; 13] = [
    "", "0", "0", "1", "1", "2", "2", "3", "10", "1000", "-1", "2147483647", "-2147483648",
];
const LINE_BREAKS: [&str; 4] = ["\\\n", "\\\r", "\\\r\n", "\\\r\n\n"];
#[rustfmt::skip]
const SYMBOLS: [&str; 14] = [
    "\\~", "\\~", "\\_", "\\_", "\\-", "\\-", "\\:", "\\|", "\\ ", "\\\t", "\\7", "\\;", "\\\"", "\\\x00",
];
const ESCAPES: [&str; 6] = ["\\{", "\\}", "\\\\", "\\\\", "\\{ ", "\\\\\\}"];
#[rustfmt::skip]
const HIDDEN: [&str; 8] = [
    "{\\*", "{\\*\\gen ", "{\\stylesheet", "{\n\\*", "{\\\n\\stylesheet ", "{\\\r\\*",
    "{\r\n\\stylesheet\n", "{\\* ",
];
const NEARLY_HIDDEN: [&str; 5] =
    ["{ \\*}", "{\\~\\stylesheet}", "{\\stylesheet1 ", "{\\Stylesheet ", "{\\'41\\*}"];
const KEYS: [&str; 8] = ["0", "1", "1", "2", "65535", "65536", "-1", "2147483647"];
const IN_FONTS: [&str; 9] =
    ["", "\\fswiss", "\\fcharset0", "\\~", "\\'41", "\\u65?", "\\uc2", "\n", "\\\r\n"];
const FONTS: [&str; 7] = ["", " Arial;", " Times New\nRoman;", ";;", " A;B;", "-", "\\{x;"];
const BROKEN_TABLES: [&str; 5] = [
    "{\\\n\\fonttbl{\\f0 A;}}",
    "{\\\r\n\n\\fonttbl}",
    "{\\\n\\\r\\colortbl;}",
    "{\\fonttbl{\\f0 A;}{\\f B;}}",
    "{\\colortbl\\red256\\blue0;}",
];

struct Draft<'a> {
    random: &'a mut Random,
    letter: Vec<u8>,
    enough: usize,
    /// One piece in so many is faulty; 0 for none.
    faults: usize,
}

/// A letter of about `size` bytes; half of them have no fault.
pub fn letter(random: &mut Random, size: usize) -> Vec<u8> {
    let faults = if random.once_in(2) { 0 } else { *random.pick(&[5, 20, 60, 200]) };
    let mut draft = Draft { random, letter: Vec::new(), enough: size, faults };
    draft.put("{");
    if draft.random.once_in(2) {
        draft.put("\\rtf1\\ansi");
    }
    for _ in 0..draft.random.below(3) {
        draft.table();
    }
    while draft.letter.len() < size && !draft.random.once_in(40) {
        draft.piece(1);
    }
    draft.put("}");
    if draft.random.once_in(16) {
        draft.behind();
    }
    draft.letter
}

impl Draft<'_> {
    fn put(&mut self, text: &str) {
        self.letter.extend_from_slice(text.as_bytes());
    }

    fn any(&mut self, from: &[&'static str]) {
        let text = *self.random.pick(from);
        self.put(text);
    }

    fn word(&mut self, names: &[&str], numbers: &[&str]) {
        let (name, number) = (*self.random.pick(names), *self.random.pick(numbers));
        let end = *self.random.pick(&ENDS);
        self.put(&format!("\\{name}{number}{end}"));
    }

    fn text(&mut self, most: usize) {
        // A letter or a digit would belong to a word before it.
        if self.letter.last().is_some_and(u8::is_ascii_alphanumeric) && !self.random.once_in(8) {
            self.put(" ");
        }
        for _ in 0..self.random.between(1, most) {
            let byte = self.random.byte(TEXT);
            self.letter.push(byte);
            if self.random.once_in(16) {
                self.any(&RAW);
            }
        }
    }

    fn piece(&mut self, depth: usize) {
        if self.faults > 0 && self.random.once_in(self.faults) {
            return self.fault();
        }
        match self.random.below(32) {
            0..3 if depth < 40 => self.group(depth),
            0..6 => self.text(12),
            6..9 => self.word(&FLAGS, &FLAG_NUMBERS),
            9 | 10 => self.word(&SIZES, &SIZE_NUMBERS),
            11 | 12 => self.word(&MEASURES, &MEASURE_NUMBERS),
            13..15 => self.word(&BARE, &["", "", "", "1", "0"]),
            15..22 => self.units(depth),
            22 | 23 => self.any(&SYMBOLS),
            24 => self.hex(),
            25 => self.any(&LINE_BREAKS),
            26 => self.any(&ESCAPES),
            27 => self.any(&RAW),
            28 => self.hidden(depth),
            29 if self.random.once_in(4) => self.table(),
            29 => self.any(&NEARLY_HIDDEN),
            30 => self.word(&["zz", "B", "Par", "pARD", "uC", "U", "ucx"], &["", "1", "-7"]),
            _ => self.word(&NAMES, &["", "1"]),
        }
    }

    fn group(&mut self, depth: usize) {
        let nested = if self.random.once_in(60) { self.random.between(50, 70) } else { 1 };
        self.put(&"{".repeat(nested));
        for _ in 0..self.random.between(0, 8) {
            if self.letter.len() >= self.enough {
                break;
            }
            self.piece(depth + nested);
        }
        self.put(&"}".repeat(nested));
    }

    /// Units, with all that may be passed over behind them, and a little more or less of it.
    fn units(&mut self, depth: usize) {
        if self.random.once_in(3) {
            self.word(&["uc"], &SKIPS);
        }
        for _ in 0..self.random.between(1, 4) {
            match self.random.below(8) {
                0 => self.word(&["u"], &NO_UNITS),
                1 => {
                    let number = self.random.below(65_536).to_string();
                    self.word(&["u"], &[&number]);
                }
                2 => self.put("\\u-10179?\\u-8704?"),
                _ => self.word(&["u"], &UNITS),
            }
            for _ in 0..self.random.below(4) {
                self.behind_unit(depth);
            }
        }
    }

    fn behind_unit(&mut self, depth: usize) {
        match self.random.below(16) {
            0..5 => self.put("?"),
            5..7 => self.text(3),
            7 | 8 => self.hex(),
            9 => self.any(&SYMBOLS),
            10 => self.any(&RAW),
            11 => self.word(&FLAGS, &FLAG_NUMBERS),
            12 => self.any(&["\\*", "\\cf-1", "\\sl-2147483648 ", "\\\n", "\\\r\n"]),
            13 => self.any(&ESCAPES),
            14 if depth < 40 => self.group(depth),
            _ => self.hidden(depth),
        }
    }

    fn hex(&mut self) {
        self.put("\\'");
        for _ in 0..2 {
            let byte = self.random.byte(HEX);
            self.letter.push(byte);
        }
    }

    fn hidden(&mut self, depth: usize) {
        self.any(&HIDDEN);
        if depth < 40 && self.random.once_in(2) {
            self.group(depth + 1);
        }
        self.put("}");
    }

    fn table(&mut self) {
        if self.random.once_in(2) {
            return self.colours();
        }
        self.put("{\\fonttbl");
        for _ in 0..self.random.below(5) {
            let open = self.random.once_in(2);
            self.put(if open { "{" } else { "" });
            let key = *self.random.pick(&KEYS);
            self.put(&format!("\\f{key}"));
            self.any(&IN_FONTS);
            self.any(&FONTS);
            self.put(if open { "}" } else { "" });
        }
        self.put("}");
    }

    fn colours(&mut self) {
        self.put("{\\colortbl;");
        for _ in 0..self.random.below(12) {
            self.word(&["red", "green", "blue", "blue"], &["", "0", "1", "46", "200", "255"]);
            if self.random.once_in(6) {
                self.any(&IN_FONTS);
            }
        }
        self.put("}");
    }

    fn fault(&mut self) {
        match self.random.below(12) {
            0 => self.put("\\*"),
            1 | 2 => self.any(&BROKEN_TABLES),
            3 => self.put("\\sl-2147483648 "),
            4 | 5 => self.word(&SIZES, &["-1", "65536", "2147483647", "-2147483648"]),
            6 => self.put("}"),
            7 => self.put("{"),
            8 => self.word(&NAMES, NUMBERS),
            9 => self.any(&["\\'4g", "\\'", "\\'4", "\\'4\n1", "\\'+g"]),
            10 => {
                let alphabet = self.random.pick(&ALPHABETS);
                self.any(alphabet.fragments);
            }
            _ => self.any(TELLING),
        }
    }

    /// Closing and opening brackets, and pieces, with no state left or a fresh one.
    fn behind(&mut self) {
        for _ in 0..self.random.between(1, 4) {
            match self.random.below(4) {
                0 | 1 => self.put("}"),
                2 => self.put("{"),
                _ => self.piece(1),
            }
        }
        self.put("}");
    }

    /// A piece that standard and paragraph reading take for the same: words of 01 but `u`, each
    /// with a space or a special byte behind it; numbers of flags 0 or 1; text that is not all
    /// white; escapes and line breaks before text; `\*` before a special byte.
    fn agreed(&mut self, depth: usize) {
        match self.random.below(16) {
            0..3 if depth < 70 => {
                self.put("{");
                self.agreed_pieces(depth + 1);
                self.put("}");
            }
            0..6 => self.agreed_text(),
            6..8 => self.agreed_word(&FLAGS, &["", "0", "1"]),
            8 => self.agreed_word(&SIZES, &SIZE_NUMBERS),
            9 => self.agreed_word(&MEASURES, &MEASURE_NUMBERS),
            10 => self.agreed_word(&BARE, &["", "", "1"]),
            11 => self.agreed_word(&["uc", "zz", "rtf", "ansi", "s", "filetbl"], NUMBERS),
            12 => {
                // Behind a mark, text is lost in the one and kept in the other.
                self.any(&["{\\*\\zz ", "{\\stylesheet ", "{\\fonttbl ", "{\\colortbl "]);
                self.agreed_pieces(depth + 1);
                self.put("}");
            }
            13 => self.agreed_word(&["f", "red", "green", "blue"], &["", "1", "7", "255", "256"]),
            14 => {
                self.any(&["{\\\n\\fonttbl}", "\\*{}", "\\sl-2147483648 ", "\\cf65536 ", "}", "{"])
            }
            _ => self.any(&["\\{a", "\\}", "\\\\b ", "\\\nc", "\\\r\nd", "\\\re"]),
        }
    }

    fn agreed_pieces(&mut self, depth: usize) {
        for _ in 0..self.random.between(0, 6) {
            if self.letter.len() < self.enough {
                self.agreed(depth);
            }
        }
    }

    fn agreed_word(&mut self, names: &[&str], numbers: &[&str]) {
        let (name, number) = (*self.random.pick(names), *self.random.pick(numbers));
        // What is no number in 01 would be text here.
        let number =
            if number.trim_start_matches('-').parse::<u128>().is_ok() { number } else { "" };
        let number = if number.starts_with("--") { "" } else { number };
        // A special byte may follow; nothing else is glued to a word.
        self.put(&format!("\\{name}{number}"));
        match self.random.below(8) {
            0..4 => self.put(" "),
            4 => self.put("\nt"),
            5 => self.put("{}"),
            6 => self.put("\\{"),
            _ => self.put("  "),
        }
    }

    /// Text that is not all white, wherever it stands.
    fn agreed_text(&mut self) {
        const PLAIN: &[u8] = b"abcxyz   \tABC0129.,;:!?-+*'\"()/~_";
        for _ in 0..self.random.between(0, 6) {
            let byte = self.random.byte(PLAIN);
            self.letter.push(byte);
        }
        self.put(".");
    }
}

/// A letter that standard and paragraph reading must answer alike.
pub fn agreeing(random: &mut Random, size: usize) -> Vec<u8> {
    let mut draft = Draft { random, letter: Vec::new(), enough: size, faults: 0 };
    draft.put("{");
    while draft.letter.len() < size && !draft.random.once_in(30) {
        draft.agreed(1);
    }
    draft.put("}");
    draft.letter
}
