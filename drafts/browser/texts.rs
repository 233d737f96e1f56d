//! Block lists whose fragments are shown: listed texts, and texts at random.

use crate::random::Random;
use rule::{FLAGS, MARKS};

const BLOCK_WORDS: usize = 16;
const SIZE: usize = 2;
const ALL_FLAGS: u32 = 127;
/// Characters of a text among those that hold every character.
const PART: usize = 4_096;

/// Blocks and text, as a reading gives them.
pub struct List {
    pub name: String,
    pub blocks: Vec<u32>,
    pub text: Vec<u8>,
}

/// Markup and what looks like it; texts that an HTML parser has rules of its own for.
#[rustfmt::skip]
const MARKUP: [&str; 76] = [
    "&", "<", ">", "\"", "'", "&amp;", "&lt;", "&gt;", "&quot;", "&amp;lt;", "&amp;amp;amp;", "&#60;",
    "&#x3c;", "&#0;", "&#128;", "&lt", "&amp", "&copy", "&notit;", "&notin;", "&nbsp;", "&;", "&#;",
    "&&", "<<", ">>", "<>", "</>", "< b>", "<br>", "<br/>", "</br>", "<p>", "</p>", "<b>", "</b>",
    "<i><b></i></b>", "<span>", "</span>", "<span class=\"x\">", "</div>", "<div>", "</body>", "</html>",
    "<script>", "</script>", "<script>document.body.remove()</script>", "<style>*{display:none}</style>",
    "<textarea>", "<title>", "<plaintext>", "<table><tr>", "<!--", "-->", "<!-- a -->", "<![CDATA[a]]>",
    "<!doctype html>", "<?xml?>", "<img src=x onerror=\"document.body.remove()\">", "<a href='#'>",
    "<svg/onload=a>", "<template>", "\n", "\n\n", "\na", "a\n", "\n<br>\n", "\t", "\ta\t\tb\t", " ",
    "  a  b  ", "\u{feff}a\u{feff}", "e\u{301}", "\u{202e}abc\u{202c}", "\u{ad}\u{200b}\u{2028}\u{2029}",
    "\u{fffe}\u{ffff}\u{1ffff}\u{10ffff}",
];
const WORDS: [&str; 10] = [
    "the ",
    "parcel",
    ", ",
    "caf\u{e9}",
    " \u{2014} ",
    "\u{1f600}",
    "x",
    "\u{4e2d}\u{6587}",
    "1 ",
    ".",
];

impl List {
    /// Blocks of these flags and texts; neighbours of the same flags have two sizes.
    fn of(name: &str, blocks: &[(u32, String)]) -> Self {
        let mut list = List { name: name.to_string(), blocks: Vec::new(), text: Vec::new() };
        for (number, (flags, text)) in blocks.iter().enumerate() {
            let mut record = [0; BLOCK_WORDS];
            record[SIZE] = 20 + number as u32 % 2;
            record[FLAGS] = *flags;
            record[BLOCK_WORDS - 2] = list.text.len() as u32;
            record[BLOCK_WORDS - 1] = text.len() as u32;
            list.blocks.extend(record);
            list.text.extend_from_slice(text.as_bytes());
        }
        list
    }

    /// What a browser must have: the elements around each text, with dots between, and the text.
    pub fn spans(&self) -> Vec<(String, String)> {
        let span = |record: &[u32]| {
            let marks = MARKS.iter().filter(|(flag, _)| record[FLAGS] & flag != 0);
            let names: Vec<&str> =
                ["span"].into_iter().chain(marks.map(|(_, name)| *name)).collect();
            let [place, length] = [BLOCK_WORDS - 2, BLOCK_WORDS - 1].map(|w| record[w] as usize);
            let text = &self.text[place..][..length];
            (names.join("."), String::from_utf8(text.to_vec()).expect("a text is UTF-8"))
        };
        self.blocks.chunks_exact(BLOCK_WORDS).map(span).collect()
    }
}

/// No blocks, each of `MARKUP`, all flags, and every character that is not refused.
pub fn listed() -> Vec<List> {
    let mut all = vec![List::of("no blocks", &[])];
    for text in MARKUP {
        all.push(List::of("markup", &[(0, text.to_string())]));
        all.push(List::of("markup", &[(1, format!("a{text}")), (66, format!("{text}b"))]));
    }
    for flags in 0..=ALL_FLAGS {
        all.push(List::of("flags", &[(flags, "<a>\n".to_string()), (0, "b".to_string())]));
    }
    let taken =
        |character: &char| !matches!(character, '\0'..='\x1f') || "\t\n".contains(*character);
    let every: Vec<char> = ('\0'..=char::MAX).filter(taken).collect();
    for part in every.chunks(PART) {
        all.push(List::of("every character", &[(0, part.iter().collect())]));
    }
    all
}

/// Lists on which faults must show.
pub fn telling() -> Vec<List> {
    let all = MARKS.iter().map(|(flag, name)| (*flag, name.to_string()));
    let text = "&amp;<b>\"\n".to_string();
    vec![
        List::of("no blocks", &[]),
        List::of("marks", &all.collect::<Vec<_>>()),
        List::of("markup", &[(ALL_FLAGS, text.clone()), (0, text)]),
    ]
}

/// So many lists of one to six blocks.
pub fn drawn(seed: u64, count: usize) -> impl Iterator<Item = List> {
    let mut random = Random::new(seed);
    (0..count).map(move |number| {
        let blocks: Vec<(u32, String)> = (0..random.between(1, 6))
            .map(|_| (random.below(ALL_FLAGS as usize + 1) as u32, text(&mut random)))
            .collect();
        List::of(&format!("at random, {number}"), &blocks)
    })
}

fn text(random: &mut Random) -> String {
    let pieces = if random.once_in(20) { random.between(50, 300) } else { random.between(1, 12) };
    let mut text = String::new();
    for _ in 0..pieces {
        match random.below(5) {
            0 | 1 => text.push_str(*random.pick(&MARKUP)),
            2 | 3 => text.push_str(*random.pick(&WORDS)),
            _ => text.push(character(random)),
        }
    }
    text
}

/// Any that is not refused, of each length in UTF-8.
fn character(random: &mut Random) -> char {
    let ends = [0x7F, 0x7FF, 0xFFFF, 0x10_FFFF];
    let end = *random.pick(&ends);
    let number = random.between(0x20, end);
    char::from_u32(number as u32).unwrap_or('\u{fffd}')
}
