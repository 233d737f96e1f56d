//! Known answers for every function of elduvarn.rs, in rooms of just enough, too little and none.
//!
//!     test          makes all calls; the last line counts them
//!     test names    lists the refusals by number and name
//!
//! Exit status: 0 all passed, 1 not. Expected answers are read off document 01, requests A1, A2 and
//! A5 and docs/REFUSALS.md. What happens at the borders of a room is tested by ../test.c.

use elduvarn::{
    cut, read, stored, Block, Colour, Font, Letter, Reading, Refusal, Refused, Rooms, Token,
    BLOCK_WORDS, FONT_WORDS, MOST_COLOURS, MOST_FONTS, MOST_SOURCE, MOST_TEXT, TOKEN_WORDS,
};
use std::fmt::Debug;
use std::process::ExitCode;

#[derive(Default)]
struct Counts {
    passed: usize,
    failed: usize,
}

impl Counts {
    /// Counts one check, and says if what is there is not what should be.
    fn check<T: Debug + PartialEq>(&mut self, what: &str, is: T, should: T) {
        if is == should {
            self.passed += 1;
        } else {
            self.failed += 1;
            println!("FAILED {what}: {is:?}, not {should:?}");
        }
    }
}

/// Rooms of a caller, with something in them.
struct Lent {
    tokens: Vec<Token>,
    fonts: Vec<Font>,
    colours: Vec<Colour>,
    blocks: Vec<Block>,
    text: Vec<u8>,
}

impl Lent {
    /// So many tokens, fonts, colours, blocks and bytes.
    fn of([tokens, fonts, colours, blocks, text]: [usize; 5]) -> Lent {
        Lent {
            tokens: vec![[9; TOKEN_WORDS]; tokens],
            fonts: vec![[9; FONT_WORDS]; fonts],
            colours: vec![9; colours],
            blocks: vec![[9; BLOCK_WORDS]; blocks],
            text: vec![9; text],
        }
    }

    fn rooms(&mut self) -> Rooms<'_> {
        Rooms {
            tokens: &mut self.tokens,
            fonts: &mut self.fonts,
            colours: &mut self.colours,
            blocks: &mut self.blocks,
            text: &mut self.text,
        }
    }

    /// Whether all is zero behind so many records of each.
    fn zero_behind(&self, [tokens, fonts, colours, blocks, text]: [usize; 5]) -> bool {
        self.tokens[tokens..].iter().flatten().all(|&word| word == 0)
            && self.fonts[fonts..].iter().flatten().all(|&word| word == 0)
            && self.colours[colours..].iter().all(|&word| word == 0)
            && self.blocks[blocks..].iter().flatten().all(|&word| word == 0)
            && self.text[text..].iter().all(|&byte| byte == 0)
    }
}

/// Those of 01.
const READINGS: [Reading; 2] = [Reading::Plain, Reading::Paragraphs];
const AMPLE: [usize; 5] = [100, 20, 20, 20, 100];
const NONE: [usize; 5] = [0; 5];

/// A plain block of that text; its place and length end the record.
const fn block(flags: u32, place: u32, length: u32) -> Block {
    [0, 0, 12, flags, 0, 0, 0, 0, 0, 0, 0, 0, 0, 0, place, length]
}

/// The same with indents: left, right, first line.
fn indented(indents: [i32; 3], place: u32, length: u32) -> Block {
    let mut block = block(0, place, length);
    block[11..14].copy_from_slice(&indents.map(|indent| indent as u32));
    block
}

/// Tokens, fonts, colours and blocks of a letter, and its text in both readings.
type Known = (&'static str, [usize; 4], &'static str, &'static str);

/// 01, "Sample letters", those that are read; then a colour, a paragraph and two styles.
const LETTERS: &[Known] = &[
    (r"{}", [2, 0, 0, 0], "", ""),
    (r"{\u8212 \'97}", [4, 0, 0, 1], "\u{2014}", "\u{2014}"),
    (r"{\'e9\'e8}", [4, 0, 0, 1], "\u{e9}", "\u{e9}"),
    (r"{\u-3913 }", [3, 0, 0, 1], "\u{f0b7}", "\u{f0b7}"),
    (r"{\u-10179 \u-8704 }", [4, 0, 0, 1], "\u{1f600}", "\u{1f600}"),
    (r"{\u-10179 }", [3, 0, 0, 1], "\u{fffd}", "\u{fffd}"),
    (r"{\u8217?}", [3, 0, 0, 0], "", ""),
    (r"{a}}", [4, 0, 0, 1], "a", "a"),
    (r"{a\~b}", [3, 0, 0, 1], "a", "a"),
    (r"{a{\*x}b}", [7, 0, 0, 1], "ab", "ab"),
    (r"{\\{a}}", [4, 0, 0, 1], r"\{a", r"\{a"),
    (r"{\fonttbl{\f1 Arial;}}", [7, 2, 0, 0], "", ""),
    (r"{\colortbl\red200\green16\blue46;}", [6, 0, 1, 0], "", ""),
    (r"{a\par b}", [5, 0, 0, 1], "ab", "a\nb"),
    (r"{\rtf1 a\b b}", [6, 0, 0, 2], "ab", "ab"),
];

/// Letters in standard reading: their tokens, blocks and text.
const STANDARD: &[(&str, usize, usize, &str)] = &[
    (r"{}", 2, 0, ""),
    (r"{ }", 3, 1, " "),
    (r"{\u8217?}", 4, 1, "\u{2019}"),
    (r"{\u8212 ?}", 4, 1, "\u{2014}"),
    (r"{\u8212\'97b}", 5, 1, "\u{2014}b"),
    (r"{\u65\f-1\u66\*\u67\ a}", 9, 1, "ABCa"),
    (r"{\uc2\u8217??a}", 5, 1, "\u{2019}a"),
    (r"{\uc2\u8217{?b}}", 7, 1, "\u{2019}?b"),
    (r"{\u-10179?\u-8704?}", 6, 1, "\u{1f600}"),
    (r"{\u-10179?\b\u-8704?}", 7, 2, "\u{fffd}\u{fffd}"),
    (r"{\b2 a}", 4, 1, "a"),
    (r"{a\~b}", 5, 1, "a\u{a0}b"),
    (r"{\_\-}", 4, 1, "\u{2011}\u{ad}"),
    (r"{\'80}", 3, 1, "\u{20ac}"),
    (r"{\'81}", 3, 1, "\u{fffd}"),
    (r"{\'e9\'e8}", 4, 1, "\u{e9}\u{e8}"),
    (r"{\\{a}}", 6, 1, r"\a"),
    (r"{a\par b}", 5, 1, "a\nb"),
    ("{a\r\nb\\\r\n c\\\nd}", 8, 1, "ab\n c\nd"),
];

/// Refusals for a room that is too small, in the order of rooms.
const SMALL: [Refusal; 5] = [
    Refusal::TokenRoom,
    Refusal::FontRoom,
    Refusal::ColourRoom,
    Refusal::BlockRoom,
    Refusal::TextRoom,
];

fn sizes(letter: Letter<'_>) -> [usize; 5] {
    let Letter { tokens, fonts, colours, blocks, text } = letter;
    [tokens.len(), fonts.len(), colours.len(), blocks.len(), text.len()]
}

/// In rooms of just enough, in ample ones, and each of them in turn one too small.
fn reads(
    counts: &mut Counts,
    source: &str,
    [tokens, fonts, colours, blocks]: [usize; 4],
    text: &str,
    reading: Reading,
) {
    let enough = [tokens, fonts, colours, blocks, text.len()];
    let what = format!("{reading:?} reading of {}", source.escape_default());
    for room in [enough, AMPLE] {
        let mut lent = Lent::of(room);
        let is = read(source.as_bytes(), reading, &mut lent.rooms())
            .map(|letter| (sizes(letter), letter.text_str().map(str::to_owned)));
        counts.check(&what, is, Ok((enough, Ok(text.to_owned()))));
        counts.check(&format!("{what}, rooms behind it"), lent.zero_behind(enough), true);
    }
    for (place, refusal) in SMALL.into_iter().enumerate() {
        let mut room = enough;
        if room[place] > 0 {
            room[place] -= 1;
            refuses(counts, source.as_bytes(), reading, room, at(refusal, 0));
        }
    }
}

fn at(refusal: Refusal, place: usize) -> Refused {
    Refused { refusal, place }
}

fn refuses(
    counts: &mut Counts,
    source: &[u8],
    reading: Reading,
    room: [usize; 5],
    refused: Refused,
) {
    let start = &source[..source.len().min(20)];
    let what = format!("{reading:?} reading of {} in {room:?}", start.escape_ascii());
    let mut lent = Lent::of(room);
    let is = read(source, reading, &mut lent.rooms()).map(sizes);
    counts.check(&what, is, Err(refused));
    counts.check(&format!("{what}, its rooms"), lent.zero_behind(NONE), true);
}

/// The smallest letters of docs/REFUSALS.md, others whose place tells more, and 01's limits.
fn test_refusals(counts: &mut Counts) {
    let too_deep = ["{"; 64].concat() + "}";
    let too_deep_later = " ".to_owned() + &too_deep;
    let too_long = vec![b' '; MOST_SOURCE + 1];
    let refused: &[(&[u8], Refusal, usize)] = &[
        (&too_long, Refusal::SourceTooLong, 0),
        (b"\x80", Refusal::NotAscii, 0),
        (b"{a\\'zz\x80}", Refusal::NotAscii, 0),
        (br"\'}", Refusal::HexShort, 0),
        (br"{a\'e}", Refusal::HexShort, 2),
        (br"\'zz}", Refusal::HexBad, 0),
        (br" {}\'zz}", Refusal::HexBad, 3),
        (br"\a-}", Refusal::NumberBad, 0),
        (br"{\b2147483648}", Refusal::NumberBad, 1),
        (br"{\rtf1 hello\b-}", Refusal::NumberBad, 12),
        (b"a", Refusal::LastSlice, 0),
        (b"\t {a} b\n", Refusal::LastSlice, 4),
        (b"{}\\\r\n", Refusal::LastSlice, 2),
        (b"", Refusal::NoTokens, 0),
        (b" \n ", Refusal::NoTokens, 0),
        (b"}", Refusal::FirstToken, 0),
        (b" \n}", Refusal::FirstToken, 2),
        (b"{\\\n\\fonttbl}", Refusal::TableLineBreak, 3),
        (b"{{\\\n\\fonttbl}}", Refusal::TableLineBreak, 4),
        (br"{\fonttbl\f}", Refusal::FontNumber, 9),
        (br"{\fonttbl{\f0 A;}{\f B;}}", Refusal::FontNumber, 18),
        (br"{\f-1}", Refusal::NumberField, 1),
        (br"{a\f-1}", Refusal::NumberField, 2),
        (br"{\fs65536}", Refusal::NumberField, 1),
        (br"{\colortbl\red256}", Refusal::NumberField, 10),
        (br"{a\*}", Refusal::IgnorableInBody, 2),
        (b"{}}}", Refusal::NoState, 3),
        (b"{a}}}", Refusal::NoState, 4),
        (b"{}}b}", Refusal::NoState, 2),
        (br" {}}\u65 \u66 }", Refusal::NoState, 4),
        (br"{\sl-2147483648}", Refusal::LineSpacing, 1),
        (br"{a\sl-2147483648}", Refusal::LineSpacing, 2),
        (too_deep.as_bytes(), Refusal::TooDeep, 63),
        (too_deep_later.as_bytes(), Refusal::TooDeep, 64),
    ];
    for &(source, refusal, place) in refused {
        for reading in READINGS {
            refuses(counts, source, reading, AMPLE, at(refusal, place));
        }
    }
    refuses(counts, b"", Reading::Plain, NONE, at(Refusal::NoTokens, 0));
    let standard: &[(&[u8], Refusal, usize)] = &[
        (&too_long, Refusal::SourceTooLong, 0),
        (b"\x80", Refusal::NotAscii, 0),
        (br"{a\'e}", Refusal::HexShort, 2),
        (b"{\\'8\r0}", Refusal::HexShort, 1),
        (br"{\'zz}", Refusal::HexBad, 1),
        (br"{\rtf1 hello\b2147483648}", Refusal::NumberBad, 12),
        // 3 to 5 come before 6, in the last slice too.
        (br"{a}\'8", Refusal::HexShort, 3),
        (br"{a\'zz", Refusal::HexBad, 2),
        (br"{a}\b2147483648", Refusal::NumberBad, 3),
        (b"a", Refusal::LastSlice, 0),
        (br"{a}b", Refusal::LastSlice, 2),
        (br"{\}", Refusal::LastSlice, 1),
        (br"{a}\~", Refusal::LastSlice, 3),
        (b"{}\\\r\n", Refusal::LastSlice, 2),
        (b"", Refusal::NoTokens, 0),
        (br"\a-}", Refusal::FirstToken, 0),
        (b"{\\\r\n\\fonttbl}", Refusal::TableLineBreak, 4),
        (br"{a\f-1}", Refusal::NumberField, 2),
        (br"{a\*}", Refusal::IgnorableInBody, 2),
        (br"{}}\~}", Refusal::NoState, 3),
        (br"{\sl-2147483648}", Refusal::LineSpacing, 1),
        (too_deep_later.as_bytes(), Refusal::TooDeep, 64),
    ];
    for &(source, refusal, place) in standard {
        refuses(counts, source, Reading::Standard, AMPLE, at(refusal, place));
    }
}

fn test_read(counts: &mut Counts) {
    for &(source, sizes, plain, paragraphs) in LETTERS {
        reads(counts, source, sizes, plain, Reading::Plain);
        reads(counts, source, sizes, paragraphs, Reading::Paragraphs);
    }
    for &(source, tokens, blocks, text) in STANDARD {
        reads(counts, source, [tokens, 0, 0, blocks], text, Reading::Standard);
    }
    let mut lent = Lent::of(AMPLE);
    let mut rooms = lent.rooms();
    let fonts = read(br"{\fonttbl{\f1 Arial;}}", Reading::Plain, &mut rooms);
    counts.check("fonts", fonts.map(|letter| letter.fonts), Ok(&[[0, 0, 0], [1, 14, 5]]));
    let colours = read(br"{\colortbl\red200\green16\blue46;}", Reading::Plain, &mut rooms);
    counts.check("colours", colours.map(|letter| letter.colours), Ok(&[0xc8102e]));
    let listing = read(br"{\rtf1 a\b b}", Reading::Plain, &mut rooms);
    counts.check(
        "blocks",
        listing.map(|letter| letter.blocks),
        Ok(&[block(0, 0, 1), block(1, 1, 1)]),
    );
    test_indents(counts, &mut rooms);
    test_returns(counts, &mut rooms);
    let mut letter = vec![b'a'; MOST_SOURCE];
    (letter[0], letter[MOST_SOURCE - 1]) = (b'{', b'}');
    let mut lent = Lent::of([3, 0, 0, 1, MOST_SOURCE - 2]);
    let longest = read(&letter, Reading::Plain, &mut lent.rooms()).map(sizes);
    counts.check("the longest letter", longest, Ok([3, 0, 0, 1, MOST_SOURCE - 2]));
    test_longest_text(counts);
    test_flags(counts);
}

/// Any number but 0 turns a flag on in standard reading; a name is lower case.
fn test_flags(counts: &mut Counts) {
    let mut lent = Lent::of(AMPLE);
    let mut rooms = lent.rooms();
    let letters = [(br"{\b2 a}", 1), (br"{\i-1a}", 2), (br"{\i0 a}", 0), (br"{\B1 a}", 0)];
    for (source, flags) in letters {
        let what = format!("flags of {}", source.escape_ascii());
        let is = read(source, Reading::Standard, &mut rooms).map(|letter| letter.blocks);
        counts.check(&what, is, Ok(&[block(flags, 0, 1)][..]));
    }
}

/// Three bytes of text for each two of the letter, in the room that holds any letter's text.
fn test_longest_text(counts: &mut Counts) {
    let pairs = MOST_SOURCE / 2 - 1;
    let letter = "{".to_owned() + &r"\_".repeat(pairs) + "}";
    let mut lent = Lent::of([pairs + 2, 0, 0, 1, MOST_TEXT]);
    let mut rooms = lent.rooms();
    let longest = read(letter.as_bytes(), Reading::Standard, &mut rooms);
    let text = longest.map(|letter| letter.text_str() == Ok(&"\u{2011}".repeat(pairs)));
    counts.check("the longest text", text, Ok(true));
    let room = [pairs + 2, 0, 0, 1, 3 * pairs - 1];
    refuses(counts, letter.as_bytes(), Reading::Standard, room, at(Refusal::TextRoom, 0));
}

/// Letters of one style but for indents: their blocks by paragraphs and in standard reading; read
/// plainly, one block.
fn test_indents(counts: &mut Counts, rooms: &mut Rooms<'_>) {
    let letters: &[(&str, &[Block])] = &[
        (r"{\li720\ri-360\fi15 a}", &[indented([720, -360, 15], 0, 1)]),
        (r"{\li-2147483648\ri2147483647\fi-1 a}", &[indented([i32::MIN, i32::MAX, -1], 0, 1)]),
        (r"{\li5 a\li b}", &[indented([5, 0, 0], 0, 1), block(0, 1, 1)]),
        (r"{{\ri5 a}b}", &[indented([0, 5, 0], 0, 1), block(0, 1, 1)]),
        (r"{\li1\ri2\fi3 a\pard b}", &[indented([1, 2, 3], 0, 1), block(0, 1, 1)]),
        (r"{\fi7 a\plain\fi7 b}", &[indented([0, 0, 7], 0, 2)]),
    ];
    for &(source, blocks) in letters {
        let length = blocks.iter().map(|block| block[BLOCK_WORDS - 1]).sum();
        let readings = [
            (Reading::Plain, &[block(0, 0, length)] as &[Block]),
            (Reading::Paragraphs, blocks),
            (Reading::Standard, blocks),
        ];
        for (reading, blocks) in readings {
            let what = format!("{reading:?} reading of {source}, its blocks");
            let is = read(source.as_bytes(), reading, rooms).map(|letter| letter.blocks);
            counts.check(&what, is, Ok(blocks));
        }
    }
}

/// Letters with `\` and a carriage return: their text, or refusal, plain and by paragraphs.
fn test_returns(counts: &mut Counts, rooms: &mut Rooms<'_>) {
    type Shown = Result<&'static str, Refused>;
    let letters: &[(&[u8], [Shown; 2])] = &[
        (b"{a\\\rb}", [Ok("a"), Ok("a\nb")]),
        (b"{a\\\r\nb}", [Ok("ab"), Ok("a\nb")]),
        (b"{a\\\r\n\nb}", [Ok("ab"), Ok("a\nb")]),
        (b"{\\\r \\\r\n}", [Ok(""), Ok("\n\n")]),
        (b"{\\\\\r\nb}", [Ok("\\\rb"), Ok("\\\rb")]),
        (b"{\\\n\rb}", [Ok("\n\rb"), Ok("\n\rb")]),
        (b"{\\u65 \\\r\\u66 }", [Ok("A"), Ok("A\nB")]),
        (b"{{\\\rc\\stylesheet x}b}", [Ok("b"), Ok("\ncxb")]),
        (b"{\\\r\\fonttbl}", [Ok(""), Err(at(Refusal::TableLineBreak, 3))]),
        (b"{{\\\r\n\\colortbl}}", [Ok(""), Err(at(Refusal::TableLineBreak, 5))]),
        (b"\\\r{}", [Ok(""), Err(at(Refusal::FirstToken, 0))]),
        (b"{}}\\\r}", [Err(at(Refusal::NoState, 5)), Err(at(Refusal::NoState, 3))]),
    ];
    for (source, shown) in letters {
        for (reading, should) in READINGS.into_iter().zip(*shown) {
            let what = format!("{reading:?} reading of {}", source.escape_ascii());
            let is = read(source, reading, rooms);
            let is = is.map(|letter| letter.text_str().unwrap_or("not UTF-8"));
            counts.check(&what, is, should);
        }
    }
}

fn test_cut(counts: &mut Counts) {
    // 01's table of names has b at 13 and fs at 10.
    let styled = [
        [1, 0, 0, 0, 0, 0, 0, 1],
        [5, 13, 1, 1, 0, 0, 1, 3],
        [5, 10, 1, 24, 0, 0, 4, 7],
        [0, 0, 0, 0, 10, 1, 4, 7],
        [2, 0, 0, 0, 0, 0, 11, 1],
    ];
    let letter = br"{\b1\fs24 a}";
    for (size, reading) in (0..8).flat_map(|size| READINGS.map(|reading| (size, reading))) {
        let mut room = vec![[9; TOKEN_WORDS]; size];
        let should = if size < 5 { Err(at(Refusal::TokenRoom, 0)) } else { Ok(&styled[..]) };
        let what = format!("{reading:?} cutting in a room of {size}");
        counts.check(&what, cut(letter, reading, &mut room), should);
        let used = if size < 5 { 0 } else { 5 };
        let zero = room[used..].iter().flatten().all(|&word| word == 0);
        counts.check(&format!("behind the tokens in a room of {size}"), zero, true);
    }
    let mut room = [[9; TOKEN_WORDS]; 3];
    let minus = cut(br"{\u-3913 }", Reading::Plain, &mut room);
    counts.check("a negative number", minus.map(|tokens| tokens[1][3] as i32), Ok(-3913));
    counts.check("cutting nothing", cut(b"", Reading::Plain, &mut []), Ok(&[][..]));
    counts.check("cutting blanks", cut(b" ", Reading::Plain, &mut room), Ok(&[][..]));
    let refused: &[(&[u8], Refused)] = &[
        (b"\x80", at(Refusal::NotAscii, 0)),
        (br"{a\'e}", at(Refusal::HexShort, 2)),
        (br" {}\'zz}", at(Refusal::HexBad, 3)),
        (br"{\rtf1 hello\b-}", at(Refusal::NumberBad, 12)),
        (b"a", at(Refusal::LastSlice, 0)),
        (b"\t {a} b\n", at(Refusal::LastSlice, 4)),
    ];
    for &(source, refused) in refused {
        for reading in READINGS {
            let what = format!("{reading:?} cutting of {}", source.escape_ascii());
            counts.check(&what, cut(source, reading, &mut room), Err(refused));
        }
    }
    test_returns_cut(counts);
    test_standard_cut(counts);
}

/// A line break of a backslash, a carriage return and a line feed is one slice with its tail.
fn test_returns_cut(counts: &mut Counts) {
    let [open, close] = [[1, 0, 0, 0, 0, 0, 0, 1], [2, 0, 0, 0, 0, 0, 5, 1]];
    let plain = [open, [0, 0, 0, 0, 4, 1, 3, 2], close];
    let paragraphs = [open, [3, 0, 0, 0, 0, 0, 1, 4], [0, 0, 0, 0, 4, 1, 1, 4], close];
    let mut room = [[9; TOKEN_WORDS]; 5];
    let letter = b"{\\\r\nb}";
    counts.check("a return, plain", cut(letter, Reading::Plain, &mut room), Ok(&plain[..]));
    let is = cut(letter, Reading::Paragraphs, &mut room);
    counts.check("a return, by paragraphs", is, Ok(&paragraphs[..]));
    let is = cut(letter, Reading::Standard, &mut room);
    counts.check("a return, in standard reading", is, Ok(&paragraphs[..]));
}

/// Tokens of standard reading: symbols, a hex escape, a word with its text.
fn test_standard_cut(counts: &mut Counts) {
    let letter = br"{\~ a\'80\u8217?\\{}}";
    let should = [
        [1, 0, 0, 0, 0, 0, 0, 1],
        [6, 126, 0, 0, 0, 0, 1, 4],
        [0, 0, 0, 0, 3, 2, 1, 4],
        [6, 39, 1, 128, 0, 0, 5, 4],
        [5, 2, 1, 8217, 0, 0, 9, 7],
        [0, 0, 0, 0, 15, 1, 9, 7],
        [0, 0, 0, 0, 17, 1, 16, 2],
        [1, 0, 0, 0, 0, 0, 18, 1],
        [2, 0, 0, 0, 0, 0, 19, 1],
        [2, 0, 0, 0, 0, 0, 20, 1],
    ];
    for size in [0, 9, 10, 12] {
        let mut room = vec![[9; TOKEN_WORDS]; size];
        let fits = size >= should.len();
        let told = if fits { Ok(&should[..]) } else { Err(at(Refusal::TokenRoom, 0)) };
        let what = format!("Standard cutting in a room of {size}");
        counts.check(&what, cut(letter, Reading::Standard, &mut room), told);
        let used = if fits { should.len() } else { 0 };
        let zero = room[used..].iter().flatten().all(|&word| word == 0);
        counts.check(&format!("{what}, behind the tokens"), zero, true);
    }
    let mut room = [[9; TOKEN_WORDS]; 3];
    for (source, refused) in [
        (br"{\'8}a".as_slice(), at(Refusal::HexShort, 1)),
        (br"{a}\'zz", at(Refusal::HexBad, 3)),
        (br"{a}\b2147483648", at(Refusal::NumberBad, 3)),
        (br"{a\", at(Refusal::LastSlice, 2)),
    ] {
        let what = format!("Standard cutting of {}", source.escape_ascii());
        counts.check(&what, cut(source, Reading::Standard, &mut room), Err(refused));
        counts.check("its room", room, [[0; TOKEN_WORDS]; 3]);
        room = [[9; TOKEN_WORDS]; 3];
    }
}

/// The sample listing, and its list.
const LISTING: [Block; 2] = [block(0, 0, 1), block(1, 1, 1)];
const LIST: &[u8] = b"\x02\0\0\x0c\0\0\0\0\0\0\0\0\x01a\0\0\x0c\x01\0\0\0\0\0\0\0\x01b";

/// A list in rooms of so many blocks and bytes.
fn reads_list(
    counts: &mut Counts,
    list: &[u8],
    (blocks, text): (usize, usize),
    should: Result<(&[Block], &str), Refusal>,
) {
    let what = format!("reading a list of {} bytes in {blocks} and {text}", list.len());
    let mut lent = Lent::of([0, 0, 0, blocks, text]);
    let is = stored::read(list, &mut lent.blocks, &mut lent.text);
    let is = is.map(|page| (page.blocks, page.text_str().unwrap_or("not UTF-8")));
    counts.check(&what, is, should);
    let used = should.map_or((0, 0), |(blocks, text)| (blocks.len(), text.len()));
    let zero = lent.zero_behind([0, 0, 0, used.0, used.1]);
    counts.check(&format!("{what}, rooms behind it"), zero, true);
}

fn test_stored(counts: &mut Counts) {
    counts.check("checking a good list", stored::check(LIST), Ok(()));
    counts.check("checking a list without blocks", stored::check(b"\0"), Ok(()));
    for end in 0..LIST.len() {
        counts.check("checking a start", stored::check(&LIST[..end]), Err(Refusal::StoredShort));
    }
    let refused: &[(&[u8], Refusal)] = &[
        (b"\x80\0", Refusal::StoredNumber),
        (b"", Refusal::StoredShort),
        (b"\0\0", Refusal::StoredLong),
        (b"\x01\0\0\0\0\0\0\0\0\0\0\0\0", Refusal::StoredField),
    ];
    for &(list, refusal) in refused {
        counts.check("checking a bad list", stored::check(list), Err(refusal));
        reads_list(counts, list, (2, 2), Err(refusal));
    }
    reads_list(counts, LIST, (2, 2), Ok((&LISTING, "ab")));
    reads_list(counts, LIST, (3, 9), Ok((&LISTING, "ab")));
    reads_list(counts, LIST, (1, 2), Err(Refusal::BlockRoom));
    reads_list(counts, LIST, (2, 1), Err(Refusal::TextRoom));
    reads_list(counts, LIST, (0, 0), Err(Refusal::BlockRoom));
    reads_list(counts, b"\0", (0, 0), Ok((&[], "")));
    for size in 0..LIST.len() + 3 {
        let mut room = vec![9; size];
        let fits = size >= LIST.len();
        let should = if fits { Ok(LIST) } else { Err(Refusal::OutputRoom) };
        let what = format!("writing in {size}");
        counts.check(&what, stored::write(&LISTING, b"ab", &mut room), should);
        let used = if fits { LIST.len() } else { 0 };
        counts.check(&format!("{what}, behind it"), room[used..].iter().all(|&b| b == 0), true);
    }
    let mut room = [9; 100];
    let gap = [block(0, 0, 1), block(1, 2, 1)];
    let is = stored::write(&gap, b"ab", &mut room);
    counts.check("writing a gap between texts", is, Err(Refusal::StoredField));
    counts.check("its room", room, [0; 100]);
    test_indent_not_zero(counts);
    counts.check("writing nothing", stored::write(&[], b"", &mut room[..1]), Ok(&[0][..]));
    let none = stored::write(&[], b"", &mut []);
    counts.check("writing nothing, without a room", none, Err(Refusal::OutputRoom));
}

/// 26 comes after 24 and before 25.
fn test_indent_not_zero(counts: &mut Counts) {
    let quoted = indented([0, 0, -1], 1, 1);
    let cases = [
        ([block(1, 0, 1), quoted], Refusal::IndentNotZero),
        // An indent alone parts the styles, and then nothing does.
        ([block(0, 0, 1), quoted], Refusal::IndentNotZero),
        ([indented([0, 0, -1], 0, 1), quoted], Refusal::StoredField),
        // Another fault, in front of the indent and behind it.
        ([block(128, 0, 1), quoted], Refusal::StoredField),
        ([indented([1, 0, 0], 0, 1), block(128, 1, 1)], Refusal::StoredField),
    ];
    for (blocks, refusal) in cases {
        for size in [0, LIST.len(), 100] {
            let mut room = vec![9; size];
            let is = stored::write(&blocks, b"ab", &mut room);
            counts.check(&format!("writing indents in {size}"), is, Err(refusal));
            counts.check("its room", room, vec![0; size]);
        }
    }
}

/// A letter is read, stored, checked and read back. In standard reading the space behind the hex
/// escape stays, and the `d` behind the dash is passed over.
fn test_round_trip(counts: &mut Counts) {
    let paragraphs = "Caf\u{e9}bold both\n\u{2014}dash coloured";
    round_trip(counts, Reading::Paragraphs, paragraphs);
    round_trip(counts, Reading::Standard, "Caf\u{e9} bold both\n\u{2014}ash coloured");
}

fn round_trip(counts: &mut Counts, reading: Reading, shown: &str) {
    let source = concat!(
        r"{\rtf1{\fonttbl{\f0 Helvetica;}}\fs24 Caf\'e9 {\b bold\i  both}\par ",
        r"\pard\qj\sb120\sa-120\sl-276\slmul1 \u8212 dash\cf2  coloured}",
    );
    let mut lent = Lent::of([source.len(), MOST_FONTS, MOST_COLOURS, source.len(), source.len()]);
    let mut rooms = lent.rooms();
    let letter = match read(source.as_bytes(), reading, &mut rooms) {
        Ok(letter) => letter,
        Err(refusal) => return counts.check("the letter", Err(refusal), Ok(())),
    };
    counts.check("its text", letter.text_str(), Ok(shown));
    counts.check("its blocks", letter.blocks.len(), 6);
    let mut room = vec![9; stored::most(letter.blocks.len(), letter.text.len())];
    let list = match stored::write(letter.blocks, letter.text, &mut room) {
        Ok(list) => list,
        Err(refusal) => return counts.check("storing it", Err(refusal), Ok(())),
    };
    counts.check("checking its list", stored::check(list), Ok(()));
    let just_enough = (letter.blocks.len(), letter.text.len());
    reads_list(counts, list, just_enough, Ok((letter.blocks, shown)));
}

/// `TOO_DEEP` as `TooDeep`.
fn camel(name: &str) -> String {
    let word = |word: &str| word[..1].to_owned() + &word[1..].to_lowercase();
    name.split('_').map(word).collect()
}

/// Names and numbers are those of the header: `    ELDUVARN_NAME = NUMBER`, and what follows.
fn test_header(counts: &mut Counts) {
    let mut header = Vec::new();
    let words: Vec<&str> = include_str!("../elduvarn.h").split_whitespace().collect();
    for three in words.windows(3) {
        if let (Some(name), "=") = (three[0].strip_prefix("ELDUVARN_"), three[1]) {
            let number = three[2].trim_end_matches(',').parse::<u32>();
            header.push((camel(name), number.unwrap_or(u32::MAX)));
        }
    }
    let mut ours = vec![("Success".to_owned(), 0)];
    ours.extend(Refusal::ALL.iter().map(|refusal| (refusal.name().to_owned(), refusal.number())));
    let sizes = [
        ("TokenWords", TOKEN_WORDS),
        ("FontWords", FONT_WORDS),
        ("ColourWords", std::mem::size_of::<Colour>() / 4),
        ("BlockWords", BLOCK_WORDS),
        ("MostSource", MOST_SOURCE),
        ("MostFonts", MOST_FONTS),
        ("MostColours", MOST_COLOURS),
        ("MostText", MOST_TEXT),
    ];
    ours.extend(sizes.map(|(name, size)| (name.to_owned(), size as u32)));
    let readings = [Reading::Plain, Reading::Paragraphs, Reading::Standard];
    ours.extend(readings.map(|reading| (format!("{reading:?}"), reading.number())));
    counts.check("what the header declares", ours, header);
}

fn test_names(counts: &mut Counts) {
    for (before, &refusal) in Refusal::ALL.iter().enumerate() {
        counts.check("a number", refusal.number(), before as u32 + 1);
        counts.check("its refusal", Refusal::from_number(refusal.number()), Some(refusal));
        counts.check("its name", refusal.name().to_owned(), format!("{refusal:?}"));
    }
    for number in [0, Refusal::ALL.len() as u32 + 1, u32::MAX] {
        counts.check("no refusal", Refusal::from_number(number), None);
    }
    let told = Refusal::NoState.to_string();
    counts.check("a refusal, told", told.as_str(), "refused by 14, NoState");
    let with_place = Refusal::ALL.iter().filter(|refusal| refusal.has_place());
    let with_place: Vec<u32> = with_place.map(|refusal| refusal.number()).collect();
    counts.check("with a place", with_place, vec![3, 4, 5, 6, 9, 10, 11, 12, 13, 14, 15, 16]);
    for (refused, should) in [
        (at(Refusal::NumberBad, 12), "refused by 5, NumberBad, at byte 12"),
        (at(Refusal::FirstToken, 0), "refused by 9, FirstToken, at byte 0"),
        (at(Refusal::NoTokens, 0), "refused by 8, NoTokens"),
    ] {
        counts.check("a letter's refusal, told", refused.to_string().as_str(), should);
    }
}

fn main() -> ExitCode {
    if std::env::args().nth(1).as_deref() == Some("names") {
        for refusal in Refusal::ALL {
            println!("{} {}", refusal.number(), refusal.name());
        }
        return ExitCode::SUCCESS;
    }
    let mut counts = Counts::default();
    test_header(&mut counts);
    test_names(&mut counts);
    test_cut(&mut counts);
    test_read(&mut counts);
    test_refusals(&mut counts);
    test_stored(&mut counts);
    test_round_trip(&mut counts);
    println!("test: {} passed, {} failed", counts.passed, counts.failed);
    ExitCode::from(u8::from(counts.failed > 0))
}
