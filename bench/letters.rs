//! Letters to be timed: ordinary mail, and the worst for either side.

use common::letters::repeated;

const SHORT: usize = 2_000;
const LONG: usize = 60_000;

/// By which of its sizes a kind is said to take the same time for each byte.
#[derive(Clone, Copy, PartialEq, Eq)]
pub enum Size {
    Short,
    Long,
    Other,
}

pub struct Letter {
    pub kind: &'static str,
    pub size: Size,
    pub bytes: Vec<u8>,
}

impl Letter {
    pub fn text(&self) -> &str {
        std::str::from_utf8(&self.bytes).expect("a letter is ASCII")
    }
}

pub const MAIL: &str = "mail";
pub const LINE_BREAKS: &str = "line breaks";

pub fn all() -> Vec<Letter> {
    let sizes =
        [(300, Size::Other), (2_048, Size::Short), (16_384, Size::Other), (65_536, Size::Long)];
    let mut letters: Vec<Letter> =
        sizes.map(|(bytes, size)| Letter { kind: MAIL, size, bytes: mail(bytes) }).into();
    let nested = ["{".repeat(62), "}".repeat(62)].concat();
    let hidden = format!("{{\\*{}a{}}}", "{\\*".repeat(60), "}".repeat(60));
    let units: [(&str, &[u8]); 10] = [
        (LINE_BREAKS, b"\\\n"),
        ("breaks in groups", b"{\\\n\\\n\\\n\\b a}"),
        ("braces, 63 deep", nested.as_bytes()),
        ("known words", b"\\b1\\i0\\fs24"),
        ("unknown words", b"\\deff0\\viewkind4\\lang1033"),
        ("one run of u", b"\\u8212 \\'97"),
        ("one-byte blocks", b"\\b a\\b0 a"),
        ("hidden groups", hidden.as_bytes()),
        ("signs", b"\\emdash\\tab\\line\\bullet"),
        ("plain text", b"The quick brown fox jumps over the lazy dog. "),
    ];
    for (kind, unit) in units {
        pair(&mut letters, kind, |bytes| repeated(unit, bytes));
    }
    pair(&mut letters, "256 fonts, look-ups", |bytes| look_ups(256, "\\f", bytes));
    pair(&mut letters, "256 fonts, new names", |bytes| look_ups(256, "x;}{\\f", bytes));
    pair(&mut letters, "32 fonts, look-ups", |bytes| look_ups(32, "\\f", bytes));
    pair(&mut letters, "32 fonts, new names", |bytes| look_ups(32, "x;}{\\f", bytes));
    pair(&mut letters, "fonts, descending", descending);
    letters
}

fn pair(letters: &mut Vec<Letter>, kind: &'static str, make: impl Fn(usize) -> Vec<u8>) {
    for (size, bytes) in [(Size::Short, SHORT), (Size::Long, LONG)] {
        letters.push(Letter { kind, size, bytes: make(bytes) });
    }
}

/// A font table of so many keys, then look-ups of all of them in an order that jumps about, each with
/// `between` in front. A table of 256 keys all but fills the short letter.
fn look_ups(keys: usize, between: &str, size: usize) -> Vec<u8> {
    let mut letter = b"{{\\fonttbl{".to_vec();
    for key in 0..keys {
        letter.extend_from_slice(format!("\\f{key} F;").as_bytes());
    }
    let mut key = 0;
    while letter.len() < size {
        key = (key + 149) % keys;
        letter.extend_from_slice(format!("{between}{key} ").as_bytes());
    }
    letter.extend_from_slice(b"}}a}");
    letter
}

/// Font tables of 256 keys each, every new key below all others but key 0: as many as come next to
/// `size` bytes.
fn descending(size: usize) -> Vec<u8> {
    let keys: String = (1..=255).rev().map(|key| format!("\\f{key}")).collect();
    let table = format!("{{\\fonttbl{keys}}}");
    let tables = (size + table.len() / 2) / table.len();
    repeated(table.as_bytes(), tables * table.len() + 2)
}

const MAIL_HEAD: &str = concat!(
    "{\\rtf1\\ansi\\deff0{\\fonttbl{\\f0\\fswiss\\fcharset0 Helvetica;}{\\f1\\froman Times;}}\n",
    "{\\colortbl;\\red0\\green0\\blue0;\\red200\\green16\\blue46;}\n\\pard\\plain\\f0\\fs24 ",
);
const MAIL_BODY: [&str; 5] = [
    "Dear Mrs. Ren\\'e9e Smith,\\par\nthank you for your letter of the 3rd.\\par\n",
    "We have looked into the \\b missing parcel\\b0  and found it at the depot in Lyon.\\par\n",
    "\\pard\\qj\\fi360 It will be with you by \\i Friday\\i0 ; the driver rings twice.\\par\n",
    "\\f1\\fs20\\cf2 Reference {\\b AB-1029} \\u8212 \\'97 please keep it.\\cf0\\f0\\fs24\\par\n",
    "The caf\\'e9 next door takes parcels as well, should nobody be at home that day.\\line\n",
];

/// An ordinary letter: a header, then paragraphs, with text to fill up.
pub fn mail(size: usize) -> Vec<u8> {
    let mut letter = MAIL_HEAD.as_bytes().to_vec();
    for paragraph in MAIL_BODY.iter().cycle() {
        if letter.len() + paragraph.len() + 1 > size {
            break;
        }
        letter.extend_from_slice(paragraph.as_bytes());
    }
    letter.resize(size - 1, b'.');
    letter.push(b'}');
    letter
}
