//! Letters that are listed for standard reading: the bytes of which all short strings are tried,
//! alphabets of fragments, and letters with a turn of its rules in each.

use crate::fragments::Alphabet;
use crate::letters::Sink;

/// The bytes that its rules speak of, and one or two of each other sort.
pub const BYTES: &[u8] = b"{}\\\r\n \taB7-;'*~?u";

/// What stands in `EVERYTHING`: those bytes, and fragments of every sort.
#[rustfmt::skip]
const EACH: &[&str] = &[
    "{", "}", "\\", "\r", "\n", " ", "\t", "a", "B", "7", "-", ";", "'", "*", "~", "?", "u",
    "\\u8217?", "\\u8217", "\\uc2", "\\uc0", "\\u", "\\u-10179", "\\u-8704", "\\'80", "\\'81",
    "\\b2", "\\b0", "\\par", "\\~", "\\_", "\\*", "\\\n", "\\\r\n", "\\\\", "\\{", "\\fonttbl",
    "\\f0 N;", "\\colortbl", "\\red1", "\\blue", "\\stylesheet", "\\cf-1 ", "{\\*x}",
];
/// Bare and in braces.
pub const EVERYTHING: [Alphabet; 2] = [
    Alphabet { name: "bare", front: "", back: "", fragments: EACH },
    Alphabet { name: "in braces", front: "{", back: "}", fragments: EACH },
];

/// Words are glued to what is behind them, as standard reading ends them anywhere.
#[rustfmt::skip]
pub const ALPHABETS: [Alphabet; 9] = [
    Alphabet { name: "skipping", front: "{", back: "}", fragments: &[
        "{", "}", "\\u8217", "\\u8212 ", "\\u", "\\uc0", "\\uc2", "\\uc-1", "?", "ab", " ", "\n",
        "\\'80", "\\b", "\\~", "\\*", "\\\n", "{\\*x}",
    ]},
    Alphabet { name: "units", front: "{\\uc0", back: "}", fragments: &[
        "{", "}", "\\u-10179", "\\u-8704", "\\u65", "\\u70000", "\\u", "\\uc0", "\\uc1", "?", "\r\n",
        "\\'80", "\\i", "\\:", "\\\\", "{\\*x}", "\\u-1",
    ]},
    Alphabet { name: "symbols", front: "{", back: "}", fragments: &[
        "{", "}", "\\~", "\\_", "\\-", "\\ ", "\\7", "\\;", "\\\t", "\\*", "\\{", "\\}", "\\\\",
        "\\'9f", "\\'0a", "\\\r", "\\\n", "\n", " ", "a",
    ]},
    Alphabet { name: "words", front: "{", back: "}", fragments: &[
        "{", "}", "\\b", "\\b0", "\\i-2", "\\ul", "\\ulnone", "\\B", "\\zz", " ", "\t", "a", "7",
        "-", "+", ";", "\r", "\\par", "\\",
    ]},
    Alphabet { name: "styles", front: "{", back: "}", fragments: &[
        "{", "}", "a", ".", "\\b2", "\\b0", "\\plain", "\\pard", "\\fs7", "\\qc", "\\li9", "\\fi-9",
        "\\par", "\\tab", "\\sl-7", "\\cf-1", "\\u65?", "\\~",
    ]},
    Alphabet { name: "header", front: "{", back: "}", fragments: &[
        "{", "}", "\\*", "\\\n", "\\\r\n", "\n", " ", "\\fonttbl", "\\fonttbl1", "\\colortbl",
        "\\stylesheet", "\\stylesheet0", "\\f1 A;", "\\f", "\\red9", "\\blue7", "\\blue256", "\\~",
        "\\u65",
    ]},
    Alphabet { name: "font table", front: "{{\\fonttbl", back: "}a}", fragments: &[
        "{", "}", "\\f0", "\\f1", "\\f65537", "\\f-1", "\\f", " A;", ";", "-", "\n", "\\~", "\\'41",
        "\\u65?", "\\uc9", "\\*", "\\\r", "\\{",
    ]},
    Alphabet { name: "colour table", front: "{{\\colortbl", back: "}a}", fragments: &[
        "{", "}", "\\red1", "\\red255", "\\red-1", "\\green2", "\\green", "\\blue3", "\\blue",
        "\\blue256", ";", "-", " ", "\\~", "\\u65?", "\\'41",
    ]},
    Alphabet { name: "brackets", front: "", back: "", fragments: &[
        "{", "}", "a", " ", "\n", "\\\n", "\\\r", "\\", "\\*", "\\~", "\\:", "\\'41", "\\b", "\\u65?",
        "\\u-10179", "\\f70000",
    ]},
];

/// Letters with a turn of a rule in each, beside those of the model's own samples.
#[rustfmt::skip]
pub const TELLING: &[&str] = &[
    "{\\rtf1\\ansi{\\fonttbl{\\f0\\fswiss A;}{\\f1 B;}}{\\colortbl;\\red1\\green2\\blue3;}\r\n\
     \\f1\\cf1 It\\rquote s \\u8217\\'92s\\par\r\n\\b2 x\\b0 }",
    "{\\uc2 \\u8217\\'41\\~{\\u8217\\b}c}", "{\\uc1000\\u65 {\\*x}\\u66 a\\b\\'41\\\n}",
    "{\\uc3\\u-10179 a\\'41\r\n\\zz\\u-8704 abcd}", "{\\b\\u-10179?\\i\\u-8704?}",
    "{\\u-10179?}{\\u-8704?}", "{{\\u-10179?}\\u-8704?}", "{\\u-10179?\\*}", "{\\u-10179?\\cf-1}",
    "{\\uc2\\u65\\*\\cf-1\\sl-2147483648}", "{\\b\\li7\\u65\\pard\\plain a}", "{\\fs7 \\u65?\\fs7 b}",
    "{\\u65\\uc0\\u66??}", "{\\uc0{\\uc2\\u65 abc}\\u66 abc}", "{\\u65\\\\a}", "{\\uc2\\u65\\{ab}",
    "{\\'80\\'9f\\'a0\\'ff\\'7f\\'00}", "{\\~\\_\\-\\:\\|\\ \\\t\\\x0b\\\x00\\\x7f}", "{\\_\\_\\_\\_}",
    "{{\\fonttbl\\f0 A\nB;\\f1 C\\'41D;}x}", "{{\\fonttbl\\uc9\\u65 N\\f2 M;}x}",
    "{{\\fonttbl \\f3;}x}", "{{\\colortbl\\red1\\u65\\blue2\\'41;}x}", "{{\\\r\n\n\\*x}a}", "{{ \\*x}a}",
    "{{\\~\\*x}a}", "{{\n\\stylesheet x}a}", "{{\\Stylesheet x}a}", "{{\\\r\\colortbl}}",
    "{a}}{b}\\~}", "{a}}{\\u65}b\\'41}", "{a}}\\:}", "{a}}\\\r\n}", "{a}}}", "{}}\\*}", "{a}\\~",
    "{\\b-2147483648\\i2147483647 a}", "{\\li-2147483648\\ri2147483647\\fi a}", "{\\sl1000\\sl-1 a}",
    "{\\b a\\b0 \\b b}", "{\\u65?\\u66?{\\u67?}}", "{\\par\\line\\tab\\\n}", "{a\\}b\\{c\\\\d}",
];

/// Every number from 0 to 255 as a hex escape, and every byte below 128 as a symbol, each read,
/// passed over and between two units.
pub fn hex_and_symbols(sink: &mut Sink) {
    let hex = (0..=255).map(|value| format!("\\'{value:02x}"));
    let symbols = (0..128_u8).map(|byte| format!("\\{}", char::from(byte)));
    for escape in hex.chain(symbols) {
        for (front, back) in [
            ("{", "}"),
            ("{a", " b}"),
            ("{\\u8217", "b}"),
            ("{\\u-10179", "\\u-8704?}"),
            ("{\\uc0\\u-10179", "\\u-8704}"),
            ("{{\\fonttbl\\f1 A;", "\\f2 B;}c}"),
            ("{}}", "}"),
        ] {
            sink(format!("{front}{escape}{back}").as_bytes());
        }
    }
}

/// Every number that a unit or a skip count may be near the ends of its range, and what is passed
/// over under it.
pub fn counts_and_units(sink: &mut Sink) {
    const ENDS: [i64; 26] = [
        -2147483648,
        -65537,
        -65536,
        -65535,
        -32769,
        -32768,
        -10240,
        -10241,
        -9217,
        -9216,
        -8193,
        -8192,
        -2,
        -1,
        0,
        1,
        2,
        127,
        128,
        255,
        2047,
        2048,
        65535,
        65536,
        65537,
        2147483647,
    ];
    for number in ENDS {
        sink(format!("{{\\u{number}?a}}").as_bytes());
        sink(format!("{{\\u{number} ?\\u-8704?a}}").as_bytes());
        sink(format!("{{\\u-10179?\\u{number}?a}}").as_bytes());
        for count in ENDS {
            sink(format!("{{\\uc{count}\\u{number} abc\\b\\'41\\~\\*d}}").as_bytes());
            sink(format!("{{\\uc{count} \\u{number}\\\n{{\\u65 ab}}cd}}").as_bytes());
        }
    }
}

/// Long runs: of what is passed over, of units, of symbols, up to the source's limit.
pub fn long(sink: &mut Sink) {
    const UNITS: [&str; 14] = [
        "\\_",
        "\\~",
        "\\u-10179?",
        "\\u-8704",
        "\\u65?",
        "\\'80",
        "\r\n",
        "\\:",
        "a\r",
        "\\b2.\\b0.",
        "\\\r\n",
        "{\\u65}",
        "a",
        "ab c\r\n",
    ];
    for unit in UNITS {
        for size in [100, 4_096, crate::cut::SOURCE_LIMIT] {
            for front in ["{", "{\\uc99", "{\\uc2147483647\\u65 ", "{\\uc3000\\u-10179 "] {
                let times = (size - front.len() - 1) / unit.len();
                let mut letter = format!("{front}{}", unit.repeat(times));
                letter.push_str(&"?".repeat(size - 1 - letter.len()));
                letter.push('}');
                sink(letter.as_bytes());
            }
        }
    }
}

/// As many characters as a skip count has, a few less or more, in one text and in texts and words.
pub fn long_skips(sink: &mut Sink) {
    for count in [1, 2, 127, 128, 255, 256, 257, 1_000, 4_096, 32_767, 32_768, 60_000] {
        for length in count.max(2) - 2..=count + 2 {
            let text = "a".repeat(length);
            sink(format!("{{\\uc{count}\\u65 {text}}}").as_bytes());
            sink(format!("{{\\uc{count}\\u-10179 {text}\\u-8704 {text}\\b .}}").as_bytes());
            let (front, back) = text.split_at(length / 3);
            sink(format!("{{\\uc{count}\\u65 {front}\\i\r\n{back}\\~ .}}").as_bytes());
            sink(format!("{{\\uc{count}\\u65 {front}{{{back}}}}}").as_bytes());
        }
    }
}
