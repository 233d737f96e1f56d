//! Letters that are listed rather than drawn: each function hands its letters to a sink.

use crate::cut::{NAMES, SOURCE_LIMIT};

pub type Sink<'a> = dyn FnMut(&[u8]) + 'a;

/// The bytes that the rules speak of.
pub const MARKS: &[u8] = b"{}\\'*;-0au\n ";
/// White space of all kinds among the bytes that start a slice.
pub const SPACES: &[u8] = b"\t\n\x0b\x0c\r \\{}a";
/// Those that tell what a backslash and a carriage return are; few, so that strings may be longer.
pub const RETURNS: &[u8] = b"\\\r\na{} ";

/// Small letters, each with a rule's turn in it.
#[rustfmt::skip]
pub const TELLING: &[&[u8]] = &[
    b"", b" ", b"}", b"{", b"\\", b"{}", b"}}", b"{{}", b"a", b"a}", b" {} ", b"\t{\x0b}\x0c",
    b"{\\}", b"{\\\\}", b"{\\}}", b"{\\{}", b"{\\\\}}", b"{\\\\{a}}", b"{\\\\\\}}", b"{\\\\\n}",
    b"{\\\\ }}", b"{a}", b"{ a }", b"{  }", b"{\x0b}", b"{\n}", b"{\na}", b"{a\nb}", b"{\n a}",
    b"{\n\n a \n}", b"{a}b}", b"{\\'41}", b"{\\'e9b}", b"{\\'4}", b"{\\'}", b"{\\'+a}", b"{\\'-a}",
    b"{\\'g0}", b"{\\'4 }", b"{\\'41 }", b"{\\'41  a}", b"{\\'41\t}", b"{\\'\n}", b"{\\'4{}",
    b"{\\'  }", b"{\\\n}", b"{\\\n }", b"{\\\na}", b"{\\\n\n}", b"{\\\n\\\n}", b"{\\\n\x0b}",
    b"{\\\r\n}", b"{\\b}", b"{\\b }", b"{\\b  }", b"{\\b a}", b"{\\b  a }", b"{\\b\t a}",
    b"{\\b\na}", b"{\\b\x0ba}", b"{\\b\x0c\x0c}", b"{\\b \x0b}", b"{\\b \t\x0b }", b"{\\b\r\n}",
    b"{\\b;}", b"{\\b;;}", b"{\\b1;a}", b"{\\b1; a}", b"{\\b;1}", b"{\\b-}", b"{\\b--1}",
    b"{\\b1-}", b"{\\b-1}", b"{\\b-0}", b"{\\b007}", b"{\\b1b2}", b"{\\b+1}", b"{\\b1.5}",
    b"{\\bA}", b"{\\B}", b"{\\b*}", b"{\\b'41}", b"{\\b2147483647}", b"{\\b2147483648}",
    b"{\\b-2147483648}", b"{\\b-2147483649}", b"{\\*}", b"{\\*a}", b"{\\*\\a b}", b"{\\* \n a}",
    b"{\\ }", b"{\\  }", b"{\\ a}", b"{\\ \t}", b"{\\~a}", b"{\\-}", b"{\\_}", b"{\\0}", b"{\\;}",
    b"{\\\x00}", b"{\\\x7f}", b"{\\\t}", b"{\\", b"{\\b", b"{}a", b"{}\n", b"{a\\}", b"{a\\'}",
    b"{\\'zz\\b-}", b"{\\b-\\'zz}", b"{\\b-", b"{\\'4", b"{\\ \\b1}", b"{\\u8212 \\'97}",
    b"{\\fonttbl{\\f1 Arial;}}", b"{\\rtf1\\ansi a\\b b\\b0\\par}", b"{\\\r}", b"{\\\ra}",
    b"{\\\r\na}", b"{\\\r a }", b"{\\\r\n \t}", b"{\\\r\n\na}", b"{\\\r\ra}", b"{\\\r\\\r\n}",
    b"{\\\r{a}}", b"{\\\n\ra}", b"{\\\\\r}", b"{\\\\\r\na}", b"{\\\\\\\r\na}", b"{\\ \r\n}",
    b"{a\\\r", b"{}\\\r\n", b"\\\r\na}", b" \\\r}",
];

/// All strings over an alphabet, shortest first, as they are and in braces.
pub fn every_string(alphabet: &[u8], longest: usize, sink: &mut Sink) {
    for length in 0..=longest {
        let mut digits = vec![0; length];
        loop {
            let bare: Vec<u8> = digits.iter().map(|d| alphabet[*d]).collect();
            sink(&bare);
            sink(&braced(&bare));
            if !step(&mut digits, alphabet.len()) {
                break;
            }
        }
    }
}

/// Counts on by one; false after the last number of that length.
fn step(digits: &mut [usize], base: usize) -> bool {
    for digit in digits.iter_mut().rev() {
        *digit += 1;
        if *digit < base {
            return true;
        }
        *digit = 0;
    }
    false
}

pub fn braced(inside: &[u8]) -> Vec<u8> {
    [b"{", inside, b"}"].concat()
}

/// Each byte below 128 in each place of each telling letter, put in and put over.
pub fn every_byte_everywhere(sink: &mut Sink) {
    for letter in TELLING {
        every_byte_in(letter, sink);
    }
}

/// The same in any bytes.
pub fn every_byte_in(bytes: &[u8], sink: &mut Sink) {
    for place in 0..=bytes.len() {
        for byte in 0..128 {
            let mut put = bytes.to_vec();
            put.insert(place, byte);
            sink(&put);
            if place < bytes.len() {
                put = bytes.to_vec();
                put[place] = byte;
                sink(&put);
            }
        }
    }
}

/// What can stand behind a name.
#[rustfmt::skip]
const BEHIND: &[&[u8]] = &[
    b"", b" ", b" a", b"1", b"0", b"-1", b"-", b"24 x", b";", b"7;", b"7; ", b";7", b"\x0b", b"\ta",
    b"\n", b"\\",
];

/// Each name, each name but a byte (missing, doubled or another), with all that can follow it.
pub fn names_and_near_misses(sink: &mut Sink) {
    let mut named = |name: &[u8]| {
        for behind in BEHIND {
            sink(&[b"{\\", name, behind, b"}"].concat());
        }
    };
    for name in NAMES {
        let name = name.as_bytes();
        named(name);
        named(&name.to_ascii_uppercase());
        for place in 0..name.len() {
            named(&[&name[..place], &name[place + 1..]].concat());
            named(&[&name[..place], &name[place..place + 1], &name[place..]].concat());
            for other in [b'a', b'z', name[place] ^ 1, name[place] ^ 32, b'_'] {
                let mut near = name.to_vec();
                near[place] = other;
                named(&near);
            }
        }
    }
    for (one, two) in NAMES.iter().flat_map(|one| NAMES.iter().map(move |two| (one, two))) {
        named(&[one.as_bytes(), two.as_bytes()].concat());
    }
}

/// Each name, each with a byte less, and with each byte below 128 more or other in each place:
/// without a number and with one of either sign.
pub fn names_but_a_byte(sink: &mut Sink) {
    let mut numbered = |name: &[u8]| {
        for number in ["", "7", "-7"] {
            sink(&[b"{\\", name, number.as_bytes(), b"}"].concat());
        }
    };
    for name in NAMES {
        let name = name.as_bytes();
        numbered(name);
        for place in 0..name.len() {
            numbered(&[&name[..place], &name[place + 1..]].concat());
        }
        every_byte_in(name, &mut numbered);
    }
}

/// Every pair of bytes below 128 after `\'`, at the end of a slice and before a tail.
pub fn every_hex_pair(sink: &mut Sink) {
    for high in 0..128 {
        for low in 0..128 {
            for tail in [b"".as_slice(), b"a", b" "] {
                sink(&[b"{\\'", [high, low].as_slice(), tail, b"}"].concat());
            }
        }
    }
}

/// Numbers in which one step decides between a value and refusal 5.
#[rustfmt::skip]
pub const NUMBERS: &[&str] = &[
    "0", "1", "-1", "-0", "00", "-00", "7", "24", "255", "256", "1000", "-1000", "32767", "32768",
    "-32768", "-32769", "65535", "65536", "-65536", "214748364", "2147483639", "2147483640",
    "2147483646", "2147483647", "2147483648", "2147483649", "2147483650", "2147483657",
    "-2147483639", "-2147483640", "-2147483647", "-2147483648", "-2147483649", "-2147483650",
    "-2147483658", "3000000000", "4294967295", "4294967296", "4294967297", "-4294967296",
    "9999999999", "-9999999999", "21474836470", "21474836480", "9223372036854775807",
    "9223372036854775808", "18446744073709551615", "18446744073709551616", "18446744073709551617",
    "340282366920938463463374607431768211457", "-", "--", "--1", "1-", "-1-", "1-1", "0-", "-0-0",
    "---", "1--1",
];

/// Those numbers with up to 40 zeros in front, and all short strings of digits and minus signs.
pub fn numbers(sink: &mut Sink) {
    for number in NUMBERS {
        let (minus, digits) = match number.strip_prefix('-') {
            Some(digits) => ("-", digits),
            None => ("", *number),
        };
        for zeros in 0..=40 {
            let zeros = "0".repeat(zeros);
            for word in ["b", "xyz", "u"] {
                sink(format!("{{\\{word}{minus}{zeros}{digits}}}").as_bytes());
                sink(format!("{{\\{word}{minus}{zeros}{digits}; t}}").as_bytes());
            }
        }
    }
    every_string(b"-019", 6, &mut |number| {
        sink(&[b"{\\i", number, b"}"].concat());
    });
}

/// Letters up to the source's limit: each unit over and over, in braces.
pub fn long(sink: &mut Sink) {
    const UNITS: &[&[u8]] = &[
        b"{", b"}", b"\\\n", b"\n", b"\\b", b"\\b1 ", b"\\zz ", b"\\'41", b"a", b" ", b"\\\\",
        b"\\{", b"\\*", b"{a", b"}\n", b"0", b"\\b a", b"\x0b", b"\\\r", b"\\\r\na",
    ];
    for unit in UNITS {
        for size in [100, 1_000, 4_096, 30_000, SOURCE_LIMIT - 1, SOURCE_LIMIT] {
            sink(&repeated(unit, size));
            sink(&[b"{", repeated(unit, size - 1).as_slice()].concat());
        }
    }
}

/// `{`, the unit as often as it fits, text to fill up, `}`: `size` bytes in all.
pub fn repeated(unit: &[u8], size: usize) -> Vec<u8> {
    let inside = size - 2;
    let mut letter = braced(&unit.repeat(inside / unit.len()));
    letter.pop();
    letter.resize(size - 1, b'x');
    letter.push(b'}');
    letter
}
