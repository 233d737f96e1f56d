//! Snippets that are told from request A12's text by hand.

use crate::rule::MOST;

/// A text, the most characters, the snippet.
pub type Known = (Vec<u8>, usize, Vec<u8>);

#[rustfmt::skip]
const SHORT: [(&str, usize, &str); 27] = [
    ("", 140, ""), (" ", 140, ""), ("\t\n\x0b\x0c\r ", 140, ""), ("\n\n", 0, ""), ("", 0, ""),
    ("a", 140, "a"), (" a", 140, "a"), ("a\n", 140, "a"), ("\r\n a \t b\x0b", 140, "a b"),
    ("a\x0c\x0cb", 3, "a b"), ("a b", 2, "a"), ("a b", 1, "a"), ("a b", 0, ""), ("a bc", 3, "a"),
    ("ab c", 2, "ab"), ("ab c", 3, "ab"), ("abc", 2, "ab"), ("a b c", 4, "a b"),
    ("a b c", 3, "a"), ("a  b \t c", 5, "a b c"), ("a\u{a0}b", 140, "a\u{a0}b"),
    ("\u{85}a\u{2003}", 140, "\u{85}a\u{2003}"), ("\x08a\x0e", 140, "\x08a\x0e"),
    ("\u{a0}b c", 2, "\u{a0}b"), ("\u{1f600}\u{2014} x", 3, "\u{1f600}\u{2014}"),
    ("\u{1f600}\u{2014}\u{e9}", 2, "\u{1f600}\u{2014}"), ("\x1c\x1f", 140, "\x1c\x1f"),
];

const BYTES: [(&[u8], usize, &[u8]); 12] = [
    (b"\xFF \xFF", 3, b"\xFF \xFF"),
    (b"\xFF \xFF", 2, b"\xFF"),
    (b"\xC3\xC3\xC3", 2, b"\xC3\xC3"),
    (b"a\x80\x80\x80b", 1, b"a\x80\x80\x80"),
    (b"a\x80\xBFb", 2, b"a\x80\xBFb"),
    (b"\xF0\xFF", 1, b"\xF0"),
    (b"\x80a", 1, b"\x80a"),
    (b"\x80ab", 1, b"\x80a"),
    (b"a \x80", 2, b"a \x80"),
    (b"a \x80b", 2, b"a"),
    (b"\t\x80\t\tb ", 140, b"\x80 b"),
    (b"\xF0\x9F \xA0", 140, b"\xF0\x9F \xA0"),
];

/// All of them, with those at the limit of a mail snippet.
pub fn all() -> Vec<Known> {
    let short = SHORT.map(|(text, most, snippet)| (text.as_bytes(), most, snippet.as_bytes()));
    let known = short.into_iter().chain(BYTES);
    let known = known.map(|(text, most, snippet)| (text.to_vec(), most, snippet.to_vec()));
    known.chain(long()).collect()
}

/// So many of a character, what stands behind them, and how many of them and of the rest are kept.
fn long() -> impl Iterator<Item = Known> {
    const LONG: [(&str, usize, &str, usize, &str); 13] = [
        ("x", 140, "", 140, ""),
        ("x", 141, "", 140, ""),
        ("x", 140, "  ", 140, ""),
        ("x", 140, " y", 140, ""),
        ("x", 139, " y", 139, ""),
        ("x", 138, " y", 138, " y"),
        ("x", 138, " yz", 138, ""),
        ("x", 138, "\r\n\t", 138, ""),
        ("x", 137, "\t\ty z", 137, " y"),
        ("x", 136, " y z", 136, " y z"),
        ("\u{e9}", 141, "", 140, ""),
        ("\u{2014}", 139, " \u{2014}", 139, ""),
        ("\u{1f600}", 200, " a", 140, ""),
    ];
    LONG.into_iter().map(|(unit, count, rest, kept, of_rest)| {
        let text = unit.repeat(count) + rest;
        (text.into_bytes(), MOST, (unit.repeat(kept) + of_rest).into_bytes())
    })
}
