//! Letters that are listed for the whole reading: all short sequences of fragments, words with
//! numbers, and both sides of each limit.

use crate::cut::NAMES;
use crate::letters::{Sink, NUMBERS};
use crate::random::Random;

/// Fragments of which all short sequences are tried, and what stands around each sequence.
pub struct Alphabet {
    pub name: &'static str,
    pub front: &'static str,
    pub fragments: &'static [&'static str],
    pub back: &'static str,
}

/// No word is glued to what is behind it: it ends with its space.
#[rustfmt::skip]
pub const ALPHABETS: [Alphabet; 8] = [
    Alphabet { name: "body", front: "{", back: "}", fragments: &[
        "{", "}", "a", "\\b ", "\\b0 ", "\\plain ", "\\pard ", "\\fs7 ", "\\qc ", "\\uc0 ",
        "\\u8212 ", "\\'97", "\\par ", "\\line ", "\\\n", "\\*", "\\cf-1 ", "\\\r",
    ]},
    Alphabet { name: "returns", front: "{", back: "}", fragments: &[
        "{", "}", "a", " ", "\\\r", "\\\r\n", "\\\n", "\r", "\n", "\\\\", "\\*", "\\stylesheet ",
        "\\fonttbl ", "\\u65 ", "\\par ", "\\b ",
    ]},
    Alphabet { name: "indents", front: "{", back: "}", fragments: &[
        "{", "}", "a", "\\li9 ", "\\li0 ", "\\ri9 ", "\\ri ", "\\fi-9 ", "\\fi2147483647 ",
        "\\li-2147483648 ", "\\pard ", "\\plain ", "\\par ", "\\b ",
    ]},
    Alphabet { name: "header", front: "{", back: "}", fragments: &[
        "{", "}", "\\*", "\\\n", "\\fonttbl ", "\\fonttbl1 ", "\\colortbl ", "\\colortbl0 ",
        "\\stylesheet ", "\\f1 ", "\\f ", "A;", "\\red9 ", "\\blue7 ", "\\blue256 ", "\\u65 ",
        "\\\r\n",
    ]},
    Alphabet { name: "font table", front: "{{\\fonttbl ", back: "}a}", fragments: &[
        "{", "}", "\\f0 ", "\\f1 ", "\\f65537 ", "\\f-1 ", "\\f ", "A;", "B;;", ";", "\\\n", "\\*",
        "\\fcharset0 ", "\\'41", "\\\r",
    ]},
    Alphabet { name: "colour table", front: "{{\\colortbl ", back: "}a}", fragments: &[
        "{", "}", "\\red1 ", "\\red255 ", "\\red-1 ", "\\green2 ", "\\green ", "\\blue3 ",
        "\\blue ", "\\blue255 ", "\\blue256 ", ";", "\\f1 ",
    ]},
    Alphabet { name: "units", front: "{", back: "}", fragments: &[
        "\\uc0 ", "\\uc2 ", "\\uc-1 ", "\\uc ", "\\u8212 ", "\\u65 ", "\\'e9", "\\u-10179 ",
        "\\u-8704 ", "\\u70000 ", "\\u ", "a", "{\\*x}", "\\b ",
    ]},
    Alphabet { name: "brackets", front: "", back: "", fragments: &[
        "{", "}", "a", "\\\n", "\\\r", "\n", "\\*", "\\b ", "\\par ", "\\f70000 ", "\\fonttbl ",
        "{\\fonttbl{\\f1 A;}}", "{\\colortbl\\blue1 ;}",
    ]},
];

/// All sequences of up to so many fragments, shortest first.
pub fn every_sequence(alphabet: &Alphabet, longest: usize, sink: &mut Sink) {
    let mut letter = Vec::new();
    for length in 0..=longest {
        let count = alphabet.fragments.len();
        for number in 0..count.pow(length as u32) {
            letter.clear();
            letter.extend_from_slice(alphabet.front.as_bytes());
            let mut left = number;
            for _ in 0..length {
                letter.extend_from_slice(alphabet.fragments[left % count].as_bytes());
                left /= count;
            }
            letter.extend_from_slice(alphabet.back.as_bytes());
            sink(&letter);
        }
    }
}

/// A sequence at random, of fragments from all alphabets of `ALPHABETS`.
pub fn soup(random: &mut Random, longest: usize) -> Vec<u8> {
    soup_of(&ALPHABETS, random, longest)
}

/// The same from other alphabets.
pub fn soup_of(alphabets: &[Alphabet], random: &mut Random, longest: usize) -> Vec<u8> {
    let home = random.pick(alphabets);
    let mut letter = home.front.as_bytes().to_vec();
    for _ in 0..random.between(1, longest) {
        let from = if random.once_in(3) { random.pick(alphabets) } else { home };
        letter.extend_from_slice(random.pick(from.fragments).as_bytes());
    }
    letter.extend_from_slice(home.back.as_bytes());
    if random.once_in(2) {
        letter.insert(0, b'{');
        letter.push(b'}');
    }
    letter
}

/// 01's sample letters, the one with a listing first.
pub const SAMPLES: [&str; 15] = [
    "{\\rtf1 a\\b b}",
    "{}",
    "",
    "{\\u8212 \\'97}",
    "{\\'e9\\'e8}",
    "{\\u-3913 }",
    "{\\u-10179 \\u-8704 }",
    "{\\u-10179 }",
    "{\\u8217?}",
    "{a}}",
    "{a}}}",
    "{a\\~b}",
    "{a{\\*x}b}",
    "{\\\\{a}}",
    "{\\fonttbl{\\f1 Arial;}}",
];

/// Letters with a turn of the whole reading in each.
#[rustfmt::skip]
pub const TELLING: &[&str] = &[
    "{\\rtf1\\ansi{\\fonttbl{\\f0 A;}{\\f1 B;}}{\\colortbl;\\red1\\green2\\blue3;}\\f1\\cf1 x}",
    "{{\\fonttbl\\f7}a}", "{{\\fonttbl\\f}a}", "{{\\fonttbl A;{B;}\\f1}a}",
    "{{\\fonttbl{\\f1 A;;}b}c}", "{\\fonttbl\\f65536 A;\\f-1 B}",
    "{{\\fonttbl\\f1 A}{\\fonttbl\\f2 B}}", "{{\\\n\\fonttbl}}", "{{\\\n\\\n\\colortbl}}",
    "{{\\\n\\*x}a}", "{{\\\n\\stylesheet}a}", "{{\\stylesheet1}a}",
    "{{\\colortbl\\red\\green\\blue\\red9\\blue1}a}", "{{\\colortbl\\blue256}a}",
    "{{\\colortbl\\red1\\blue2{\\blue3}}{\\colortbl}}", "{{\\*\\a{\\b}\\c}d}", "{{\\*a", "{a\\*}",
    "{\\b\\b0\\b1\\b2 a}", "{\\b a\\plain b}", "{\\qc a\\pard b}", "{\\b a\\b0 \\b b}",
    "{\\fs65535 a}", "{\\fs65536 a}", "{\\cf-1}", "{\\f a}", "{\\ul\\ulnone a}", "{\\sl a}",
    "{\\sl1000 a}", "{\\sl-7 a}", "{\\sl-2147483648 a}", "{\\sl2147483647\\slmul-1 a}",
    "{\\sb-1\\sa2\\pardeftab720 a}", "{\\par a\\par\\pard b\\par}", "{{\\b a}b}",
    "{{\\uc0 \\u65 \\'42}}", "{\\uc2\\u8212 \\'41\\'42\\'43}", "{\\uc0\\u8212 \\'41}",
    "{\\u8212 ?}", "{\\u8212 \\u-1 \\'41}", "{\\u65 {\\*x}\\u66 }", "{\\u \\u65 \\u66 }",
    "{\\u70000 \\u65 }", "{\\u-65537 \\u65 }", "{\\u70000 }", "{\\uc-1\\u}", "{\\uc-2\\u}",
    "{\\u55296}", "{\\uc-1\\u65 \\u66 }", "{\\uc-2\\u65 }", "{\\u-10179 a}",
    "{\\u-8704 \\u-10179 }", "{\\u-10179 \\u65 \\u-8704 }", "{\\uc0\\u-10179 \\u65 \\u-8704 }",
    "{\\emdash\\tab\\line}", "{a}}{b}", "{a}}b}", "{a}}\\*}", "{a}}\\cf-1}", "{a}}}", "{}}\\\n}",
    "{a}}{\\b b}c}", "{\n\\b\n a\n}", "a{}", "{\\'41{\\'42}\\'43}", "{\\li9\\ri9\\fi9 a\\li0 b}",
    "{\\li1\\ri-2\\fi3 a\\pard b}", "{\\li-2147483648\\ri2147483647\\fi a}", "{{\\ri7 a}b{\\fi7 c}}",
    "{\\li5 a\\li\\fi5 b\\plain c}", "{\\fi4 \\u65 \\fi4 \\u66 \\par c}", "{\\li6 a}}{b\\li6 c}d}",
    "{a\\\rb}", "{a\\\r\nb\\\r\n}", "{a\\\r\n\nb\\\n\rc}", "{\\b a\\\r\\\r\n \\b0 b}",
    "{\\\\\rb\\\\\r\nc}", "{{\\\r\\fonttbl}}", "{{\\\r\n\\\r\\colortbl}}", "{{\\\r\n\n\\*x}a}",
    "{{\\\r\\stylesheet}a}", "{{\\\rb\\stylesheet c}a}", "{{\\\rb\\*c}a}",
    "{{\\fonttbl{\\f1 A\\\rB;}}a}", "{}}\\\r}", "{}}\\\r\n{b}c}", "{\\u65 \\\r\\u66 }",
    "{\\u-10179 \\\r\n\\u-8704 }", "{\\u8212 \\\r\\'41}", "{a}\\\r\n", "\\\r{a}",
];

/// What is refused wherever it is read, by each number from 3 to 5 and from 10 to 15; 6 and 9 are
/// met at the ends of a letter. The last two are refused by paragraphs, and often only there.
#[rustfmt::skip]
const FAULTS: [&str; 23] = [
    "\\'4", "\\'zz", "\\b-", "\\zz9999999999;", "{\\\n\\fonttbl x}", "{\\\n\n\\\na\\colortbl}",
    "{\\\n \\\n\\colortbl}", "{\\fonttbl{\\f1 A;}b\\f C;}", "{\\colortbl;\\red256 ;}",
    "{\\colortbl;\\green1 \\blue-1;}", "\\cf65536 ", "\\f-1 ", "\\fs70000 ", "\\*a",
    "}}}a", "}}}}\\b ", "}}}\\\n", "}} } \\u65 \\'42a", "}}}\\'41\\u \\u66 ", "}}{}}\\zz1 a",
    "\\sl-2147483648 ", "{\\\r\n \\\r\\fonttbl x}", "}}}\\\r\na",
];
/// What may stand before a letter: white space, and slices without a token.
pub const FRONTS: [&str; 4] = ["", " \t\n", "\\~x\n", "\\-\\~ \n \\;"];

/// Each fault, and one bracket too many for 16, in each place of a letter behind each front.
pub fn faults_everywhere(letter: &str, sink: &mut Sink) {
    let deep = "{a".repeat(64);
    for front in FRONTS {
        for place in 0..=letter.len() {
            let (before, behind) = letter.split_at(place);
            for fault in FAULTS.into_iter().chain([deep.as_str()]) {
                sink([front, before, fault, behind].concat().as_bytes());
            }
        }
    }
}

/// Each name with each number, in the body and in both tables.
pub fn words_with_numbers(sink: &mut Sink) {
    const AROUND: [(&str, &str); 3] =
        [("{", " a}"), ("{{\\fonttbl", " A;}b}"), ("{{\\colortbl", "\\blue1 }b}")];
    for name in NAMES {
        for number in NUMBERS {
            for (front, back) in AROUND {
                sink(format!("{front}\\{name}{number}{back}").as_bytes());
            }
        }
    }
}

/// Each name before each other, both with a few numbers, and text behind each.
pub fn pairs_of_words(sink: &mut Sink) {
    const FEW: [&str; 5] = ["", "0", "1", "-1", "1000"];
    let words = || NAMES.iter().flat_map(|name| FEW.map(|number| format!("\\{name}{number}")));
    for one in words() {
        for two in words() {
            sink(format!("{{{one} a{two} b}}").as_bytes());
        }
    }
}

/// Both sides of the limits on states, fonts and colours, and long runs.
pub fn limits(sink: &mut Sink) {
    for count in [1, 2, 61, 62, 63, 64, 65, 66, 100] {
        let open = "{".repeat(count);
        sink(format!("{open}}}").as_bytes());
        sink(format!("{open}a{}", "}".repeat(count)).as_bytes());
        sink(format!("{open}a{}b}}", "}".repeat(count)).as_bytes());
        sink(format!("{{}}}}{open}a{}", "}".repeat(count)).as_bytes());
        sink(format!("{open}\\*a{}}}", "}".repeat(count)).as_bytes());
        sink(format!("{{{{\\*{open}a{}}}b}}", "}".repeat(count)).as_bytes());
    }
    for count in [1, 2, 254, 255, 256, 257, 258, 300] {
        let font = |key: usize| format!("{{\\f{key} F{key};}}");
        let fonts: String = (0..count).map(font).collect();
        let again: String = (0..count).rev().map(font).collect();
        let colours: String = (0..count).map(|c| format!("\\red{}\\blue1;", c % 256)).collect();
        sink(format!("{{{{\\fonttbl{fonts}}}a}}").as_bytes());
        sink(format!("{{{{\\fonttbl{fonts}{again}\\f}}a}}").as_bytes());
        sink(format!("{{{{\\fonttbl{fonts}\\f999}}{{\\fonttbl\\f1 A;}}a}}").as_bytes());
        sink(format!("{{{{\\colortbl{colours}}}a}}").as_bytes());
        sink(format!("{{{{\\colortbl{colours}\\blue256}}a}}").as_bytes());
        sink(format!("{{{{\\colortbl{colours}}}{{\\colortbl\\blue9}}a}}").as_bytes());
        let units: String = (0..count).map(|unit| format!("\\u{} ", unit * 7)).collect();
        for skip in [0, 1, 3, 255, 256, 65_535] {
            sink(format!("{{\\uc{skip} \\u8212 {units}a}}").as_bytes());
        }
        for word in ["fs", "li"] {
            let blocks: String = (0..count).map(|size| format!("\\{word}{size} a")).collect();
            sink(format!("{{{blocks}}}").as_bytes());
        }
    }
}
