//! Lists and letters at random, of texts that look like markup.

use codec::{STORED_WORDS, STYLE_WORDS};
use common::random::Random;
use common::{fragments, grammar, mutate, reading_grammar, standard_grammar};
use records::{drawn, Records};

/// Bytes of the longest letters.
const LONGEST: usize = 8_400;
/// What is escaped, what an escape looks like, tags, words, and characters of each length.
#[rustfmt::skip]
const PIECES: [&str; 48] = [
    "&", "<", ">", "\"", "\n", "\t", "&amp;", "&lt;", "&gt;", "&quot;", "<br>", "&amp;lt;", "&#60;",
    "&#x3C;", "&lt", "&nbsp;", "<script>", "</script>", "<span>", "</span>", "<b>", "</b>", "<!--",
    "-->", "<![CDATA[", "]]>", "<a href=\"", "'", "`", "=", "/", ";", "#", "x", "ab", "the ", " ",
    "  ", "\u{7f}", "\u{80}", "\u{85}", "\u{a0}", "\u{e9}", "\u{2014}", "\u{2028}", "\u{feff}",
    "\u{ffff}", "\u{1f600}",
];
const CONTROLS: [&str; 8] = ["\r", "\r\n", "\0", "\x01", "\x08", "\x0b", "\x0c", "\x1f"];

/// Records in whose styles indents are drawn or not.
pub fn records(random: &mut Random) -> Records {
    let words = if random.once_in(4) { STYLE_WORDS } else { STORED_WORDS };
    drawn::with_texts(random, words, |random, blocks| text(random, blocks))
}

/// The same with a character now and then that is refused.
pub fn with_controls(random: &mut Random) -> Records {
    drawn::with_texts(random, STORED_WORDS, |random, blocks| {
        let mut text = text(random, blocks);
        if random.once_in(2 * blocks) {
            let places: Vec<usize> = text.char_indices().map(|(place, _)| place).collect();
            let place = *random.pick(&places);
            let control: &str = *random.pick(&CONTROLS);
            text.insert_str(place, control);
        }
        text
    })
}

fn text(random: &mut Random, blocks: usize) -> String {
    let pieces = match random.below(200) {
        0 if blocks < 5 => random.between(1_000, 3_000),
        0..20 => random.between(20, 100),
        _ => random.between(1, 8),
    };
    (0..pieces).map(|_| *random.pick(&PIECES)).collect()
}

/// A letter with text that looks like markup, in braces of its own with words that set marks.
pub fn letter_of_markup(random: &mut Random) -> Vec<u8> {
    const WORDS: [&str; 24] = [
        "\\b ",
        "\\b0 ",
        "\\i ",
        "\\ul ",
        "\\ulnone ",
        "\\super ",
        "\\sub ",
        "\\nosupersub ",
        "\\strike ",
        "\\strike0 ",
        "\\scaps ",
        "\\plain ",
        "\\par ",
        "\\line ",
        "\\tab ",
        "{",
        "}",
        "\\li720 ",
        "\\pard ",
        "\\'26",
        "\\'3c",
        "\\u38 ?",
        "\\u13 ?",
        "\\'0d",
    ];
    let mut letter = b"{\\rtf1 ".to_vec();
    let mut open = 0;
    for _ in 0..random.between(1, 60) {
        let piece = if random.once_in(2) { random.pick(&PIECES) } else { random.pick(&WORDS) };
        match *piece {
            "}" if open == 0 => continue,
            "}" => open -= 1,
            "{" => open += 1,
            // A carriage return refuses the fragment.
            "\\u13 ?" | "\\'0d" if !random.once_in(20) => continue,
            _ => {}
        }
        letter.extend(piece.bytes().filter(u8::is_ascii));
    }
    letter.extend(vec![b'}'; open + 1]);
    letter
}

/// A letter of the grammars, or a sequence of fragments.
pub fn letter(random: &mut Random) -> Vec<u8> {
    let most = if random.once_in(10) { 3_000 } else { 300 };
    let size = random.between(2, most);
    let mut letter = match random.below(8) {
        0..3 => reading_grammar::letter(random, size),
        3..6 => standard_grammar::letter(random, size),
        6 => grammar::letter(random, size),
        _ => fragments::soup(random, 24),
    };
    letter.truncate(LONGEST);
    letter
}

/// One of markup after a few changes.
pub fn damaged_letter(random: &mut Random) -> Vec<u8> {
    let whole = letter_of_markup(random);
    mutate::mutated(random, &whole, LONGEST)
}
