//! Fragments and refusals that are told from request A8's text by hand.

use crate::lists::{flagged, marked};
use records::Records;
use rule::{Told, CONTROL_CHARACTER, STORED_FIELD};

#[rustfmt::skip]
const FRAGMENTS: [(&[(u32, &str)], &str); 28] = [
    (&[], ""),
    (&[(0, "a")], "<span>a</span>"),
    (&[(1, "a")], "<span><b>a</b></span>"),
    (&[(2, "a")], "<span><i>a</i></span>"),
    (&[(4, "a")], "<span><u>a</u></span>"),
    (&[(8, "a")], "<span><sup>a</sup></span>"),
    (&[(16, "a")], "<span><sub>a</sub></span>"),
    (&[(32, "a")], "<span>a</span>"),
    (&[(64, "a")], "<span><s>a</s></span>"),
    (&[(3, "a")], "<span><b><i>a</i></b></span>"),
    (&[(96, "a")], "<span><s>a</s></span>"),
    (&[(127, "a")], "<span><b><i><u><sup><sub><s>a</s></sub></sup></u></i></b></span>"),
    (&[(0, "a"), (1, "b"), (0, "c")], "<span>a</span><span><b>b</b></span><span>c</span>"),
    (&[(0, "a"), (32, "b")], "<span>a</span><span>b</span>"),
    (&[(0, "&")], "<span>&amp;</span>"),
    (&[(0, "<")], "<span>&lt;</span>"),
    (&[(0, ">")], "<span>&gt;</span>"),
    (&[(0, "\"")], "<span>&quot;</span>"),
    (&[(0, "\n")], "<span><br></span>"),
    (&[(5, "\n\n")], "<span><b><u><br><br></u></b></span>"),
    (&[(0, "'`/=")], "<span>'`/=</span>"),
    (&[(0, "\t \t")], "<span>\t \t</span>"),
    (&[(0, "\u{7f}\u{80}\u{a0}")], "<span>\u{7f}\u{80}\u{a0}</span>"),
    (&[(0, "\u{e9}\u{2028}\u{1f600}")], "<span>\u{e9}\u{2028}\u{1f600}</span>"),
    (&[(0, "&amp;")], "<span>&amp;amp;</span>"),
    (&[(0, "<br>")], "<span>&lt;br&gt;</span>"),
    (&[(0, "&lt;\n")], "<span>&amp;lt;<br></span>"),
    (&[(1, "</b>"), (2, "<i>")], "<span><b>&lt;/b&gt;</b></span><span><i>&lt;i&gt;</i></span>"),
];

const REFUSED: [(&[(u32, &str)], u32); 17] = [
    (&[(0, "\r")], CONTROL_CHARACTER),
    (&[(0, "\0")], CONTROL_CHARACTER),
    (&[(0, "\u{1}")], CONTROL_CHARACTER),
    (&[(0, "\u{8}")], CONTROL_CHARACTER),
    (&[(0, "\u{b}")], CONTROL_CHARACTER),
    (&[(0, "\u{c}")], CONTROL_CHARACTER),
    (&[(0, "\u{1f}")], CONTROL_CHARACTER),
    (&[(0, "a\r\n")], CONTROL_CHARACTER),
    (&[(0, "a"), (1, "b\r")], CONTROL_CHARACTER),
    (&[(0, "\r"), (1, "b")], CONTROL_CHARACTER),
    (&[(0, "")], STORED_FIELD),
    (&[(128, "a")], STORED_FIELD),
    (&[(0, "a"), (0, "b")], STORED_FIELD),
    (&[(0, "a"), (1, "")], STORED_FIELD),
    (&[(0, "\r"), (0, "b")], STORED_FIELD),
    (&[(0, "a"), (128, "\r")], STORED_FIELD),
    (&[(128, "\0")], STORED_FIELD),
];

/// All of them, with those whose words are of other kinds.
pub fn all() -> Vec<(Records, Told)> {
    let fragments = FRAGMENTS.map(|(blocks, fragment)| (flagged(blocks), Ok(fragment.into())));
    let refused = REFUSED.map(|(blocks, refusal)| (flagged(blocks), Err(refusal)));
    let mut indented = Records::default();
    let mut style = marked(1);
    [style[11], style[13]] = [720, u32::MAX];
    indented.push(&style, b"a");
    // Neighbours that differ in an indent alone.
    indented.push(&marked(1), b"&");
    let fragment = b"<span><b>a</b></span><span><b>&amp;</b></span>".to_vec();
    let mut longer = flagged(&[(0, "a")]);
    longer.blocks.push(0);
    let mut left_over = flagged(&[(0, "a")]);
    left_over.text.push(b'\r');
    let no_blocks = Records { blocks: vec![], text: b"\r".to_vec() };
    let mut bytes = flagged(&[(0, "ab")]);
    bytes.text[1] = 0xC3;
    let others = [longer, left_over, no_blocks, bytes].map(|records| (records, Err(STORED_FIELD)));
    fragments.into_iter().chain(refused).chain([(indented, Ok(fragment))]).chain(others).collect()
}
