//! Letters whose answer in standard reading is known from A1's text alone, so that the model itself
//! is held to something.

use crate::{cut, read, Kind, Token, FONTS};

/// The text; or a refusal's number and place.
type Known = Result<&'static str, [u32; 2]>;

#[rustfmt::skip]
pub const SAMPLES: &[(&str, Known)] = &[
    // Words, numbers and the space that vanishes.
    ("{\\b2 a}", Ok("a")), ("{\\b  a}", Ok(" a")), ("{\\b\ta}", Ok("\ta")), ("{\\b-a}", Ok("-a")),
    ("{\\b+1}", Ok("+1")), ("{\\b--1}", Ok("--1")), ("{\\b-1-2}", Ok("-2")), ("{\\b1;a}", Ok(";a")),
    ("{\\B a}", Ok("a")), ("{\\bA a}", Ok("a")), ("{\\pa\nr}", Ok("r")), ("{\\par a\\par1}", Ok("\na\n")),
    ("{\\b\n a}", Ok(" a")), ("{\\u8217\n7?}", Ok("\u{2019}?")), ("{ }", Ok(" ")), ("{\t}", Ok("\t")),
    // Symbols, hex escapes and line breaks.
    ("{a\\~b}", Ok("a\u{A0}b")), ("{a\\_b\\-c}", Ok("a\u{2011}b\u{AD}c")), ("{\\~ a}", Ok("\u{A0} a")),
    ("{\\:a}", Ok("a")), ("{\\ a}", Ok("a")), ("{\\1a}", Ok("a")), ("{\\'80}", Ok("\u{20AC}")),
    ("{\\'81\\'8d\\'8F\\'90\\'9d}", Ok("\u{FFFD}\u{FFFD}\u{FFFD}\u{FFFD}\u{FFFD}")),
    ("{\\'e9 a}", Ok("\u{E9} a")), ("{\\'0a\\'0d}", Ok("\n\r")), ("{\\'+a}", Ok("\n")),
    ("{\\'41\\'42}", Ok("AB")), ("{a\\\nb}", Ok("a\nb")), ("{a\\\r\nb}", Ok("a\nb")),
    ("{a\\\r\rb}", Ok("a\nb")), ("{a\\\n }", Ok("a\n ")), ("{a\r\nb\rc\nd}", Ok("abcd")),
    ("{\\\\{a}}", Ok("\\a")), ("{\\\\\\{a\\}}", Ok("\\{a}")), ("{\\\\\r\nb}", Ok("\\b")),
    ("{\\{ }", Ok("{ ")),
    // What is passed over.
    ("{\\u8217?}", Ok("\u{2019}")), ("{\\u8212 ?}", Ok("\u{2014}")), ("{\\u8217?a}", Ok("\u{2019}a")),
    ("{\\uc2\\u8217??a}", Ok("\u{2019}a")), ("{\\uc3\\u8217 a\\'41\\zz b}", Ok("\u{2019}b")),
    ("{\\uc3\\u8217 ab\ncd}", Ok("\u{2019}d")), ("{\\u8217\\b a}", Ok("\u{2019}a")),
    ("{\\u8217\\*b}", Ok("\u{2019}b")), ("{\\u8217\\cf-1 b}", Ok("\u{2019}b")),
    ("{\\u8217\\~b}", Ok("\u{2019}b")), ("{\\u8217\\\nb}", Ok("\u{2019}b")),
    ("{\\u8217\\u65 b}", Ok("\u{2019}b")), ("{\\u8217\\ b}", Ok("\u{2019}b")),
    ("{\\u8217{?}}", Ok("\u{2019}?")), ("{\\u8217}?}", Ok("\u{2019}?")),
    ("{\\u8217{\\*x}?}", Ok("\u{2019}?")), ("{\\u8217\\{a}", Ok("\u{2019}a")),
    ("{\\uc-1\\u8217?}", Ok("\u{2019}?")), ("{\\uc\\u8217?}", Ok("\u{2019}?")), ("{\\u?a}", Ok("a")),
    ("{\\u70000?a}", Ok("a")), ("{{\\uc0 a}\\u65?b}", Ok("aAb")), ("{\\uc2147483647\\u65?b}", Ok("A")),
    // Units that pair, and lone ones.
    ("{\\u-10179?\\u-8704?}", Ok("\u{1F600}")), ("{\\uc0\\u-10179\\u-8704}", Ok("\u{1F600}")),
    ("{\\u-10179?\r\n\\u-8704?}", Ok("\u{1F600}")), ("{\\u-10179\\b\\u-8704?}", Ok("\u{1F600}")),
    ("{\\u-10179\\u-8704}", Ok("\u{FFFD}")), ("{\\u-10179??\\u-8704?}", Ok("\u{FFFD}?\u{FFFD}")),
    ("{\\uc0\\u-10179\\uc0\\u-8704}", Ok("\u{FFFD}\u{FFFD}")),
    ("{\\uc0\\u-10179\\u\\u-8704}", Ok("\u{FFFD}\u{FFFD}")),
    ("{\\uc0\\u-10179{\\*x}\\u-8704}", Ok("\u{FFFD}\u{FFFD}")),
    ("{\\uc0\\u-10179{}\\u-8704}", Ok("\u{FFFD}\u{FFFD}")),
    ("{\\uc0\\u-10179\\u-10179\\u-8704}", Ok("\u{FFFD}\u{1F600}")),
    ("{\\uc0\\u8212\\u65\\u66}", Ok("\u{2014}AB")),
    // Refusals and their places.
    ("", Err([8, 0])), (" \r\n", Err([8, 0])), ("a{}", Err([9, 0])), (" \\~{}", Err([9, 1])),
    ("{a", Err([6, 0])), ("{a}b", Err([6, 2])), ("{a}\\", Err([6, 3])), ("{a}\\ ", Err([6, 3])),
    ("{a\\}", Err([6, 2])), ("{a\r\nb", Err([6, 3])), ("{\\'4", Err([3, 1])), ("{\\'4}", Err([3, 1])),
    ("{\\'4\n1}", Err([3, 1])), ("{\\'zz", Err([4, 1])), ("{\\b2147483648", Err([5, 1])),
    ("{\\zz-2147483649 }", Err([5, 1])), ("{{\\\n\\fonttbl}}", Err([10, 4])),
    ("{{\\fonttbl\\f}}", Err([11, 10])), ("{\\fs65536}", Err([12, 1])), ("{a\\*b}", Err([13, 2])),
    ("{a}}\\~}", Err([14, 4])), ("{a}}\\'41}", Err([14, 4])), ("{a}}\\u}", Err([14, 4])),
    ("{a}}\r\nb}", Err([14, 5])), ("{\\sl-2147483648}", Err([15, 1])),
];

/// Tokens of letters, whole records.
#[rustfmt::skip]
const CUT: &[(&str, &[Token])] = &[
    ("{\\'e9 }", &[
        [1, 0, 0, 0, 0, 0, 0, 1], [6, 39, 1, 233, 0, 0, 1, 5], [0, 0, 0, 0, 5, 1, 1, 5],
        [2, 0, 0, 0, 0, 0, 6, 1],
    ]),
    ("{\\~\\{a\\*b}", &[
        [1, 0, 0, 0, 0, 0, 0, 1], [6, 126, 0, 0, 0, 0, 1, 2], [0, 0, 0, 0, 4, 2, 3, 3],
        [4, 0, 0, 0, 0, 0, 6, 3], [0, 0, 0, 0, 8, 1, 6, 3], [2, 0, 0, 0, 0, 0, 9, 1],
    ]),
    ("{\\Zz-7 a\r\nb\\\r\n}", &[
        [1, 0, 0, 0, 0, 0, 0, 1], [5, 49, 1, 4_294_967_289, 1, 3, 1, 7], [0, 0, 0, 0, 7, 1, 1, 7],
        [0, 0, 0, 0, 10, 1, 9, 2], [3, 0, 0, 0, 0, 0, 11, 3], [2, 0, 0, 0, 0, 0, 14, 1],
    ]),
];

/// How many answers are known, and the letters to which the model gives another.
pub fn check() -> (usize, Vec<&'static str>) {
    let ample = [100_000; 5];
    let mut wrong = Vec::new();
    for (letter, known) in SAMPLES {
        let (answer, _) = read(letter.as_bytes(), Kind::Standard, &ample);
        let given = match answer.refusal.number {
            0 => Ok(std::str::from_utf8(&answer.text).expect("text is UTF-8")),
            number => Err([number, answer.refusal.place]),
        };
        if given != *known {
            wrong.push(*letter);
        }
    }
    for (letter, tokens) in CUT {
        if cut(letter.as_bytes(), Kind::Standard).as_deref() != Ok(*tokens) {
            wrong.push(letter);
        }
    }
    if !styles_and_names() {
        wrong.push("styles and names");
    }
    (SAMPLES.len() + CUT.len() + 1, wrong)
}

/// What texts alone do not show: flags of each number, indents, a font's name as it stands.
fn styles_and_names() -> bool {
    let ample = [100_000; 5];
    let whole = |letter: &str| read(letter.as_bytes(), Kind::Standard, &ample).0;
    let flags = |letter| whole(letter).blocks.last().map(|block| block[3]);
    let on = ["{\\b a}", "{\\b2 a}", "{\\b-1 a}", "{\\b0\\b1 a}", "{\\b\\i0 a}"];
    let off = ["{\\b0 a}", "{\\b\\b-0 a}", "{\\ul\\ulnone1 a}", "{\\B a}", "{\\u65\\b a}"];
    let indents = whole("{\\li1\\ri-2\\fi3 a\\pard b}");
    let named = whole("{{\\fonttbl\\u65?\\f7 Ari\\'e9\\~al;;}}");
    on.iter().all(|letter| flags(letter) == Some(1))
        && off.iter().all(|letter| flags(letter) == Some(0))
        && indents.blocks[0][crate::INDENTS] == [1, -2_i32 as u32, 3]
        && indents.blocks[1][crate::INDENTS] == [0; 3]
        && named.fonts == [[0, 14, 1], [7, 28, 2]]
        && named.counts()[FONTS] == 2
}
