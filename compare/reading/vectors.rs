//! Letters with the listings that the extractor must print, for a program that replays them.
//!
//! The file has no header. For each letter: its length and its bytes, the length of its listing and
//! that. Lengths are u32, little endian. Shortest letters come first.

use crate::listing::{self, INPUT};
use crate::outside::Outside;
use crate::report;
use common::cut::{NAMES, SOURCE_LIMIT};
use common::letters::{repeated, NUMBERS};
use common::oracle::{self, Reading};
use common::random::Random;
use common::{fragments, letters, mutate, reading_grammar};
use model::Kind;
use std::collections::BTreeMap;

const LARGEST_FILE: usize = 1_400_000;
/// Listings by refusal number, from the crate and from the model alone.
type Spread = [[u32; 2]; 21];

#[derive(Default)]
struct List {
    /// By length and bytes: the listing, its refusal number, and whether the crate gave it.
    listings: BTreeMap<(usize, Vec<u8>), (Vec<u8>, u32, bool)>,
    bytes: usize,
    differences: u32,
}

/// False if the crate and the model differ on a letter.
pub fn write(path: &str, seed: u64, count: usize) -> Result<bool, String> {
    println!("seed {seed}, count {count}");
    oracle::check_names();
    let mut list = List::default();
    oracle::quietly(|| {
        add_listed(&mut list);
        add_limits(&mut list);
        add_drawn(&mut list, seed, count);
    });
    std::fs::write(path, list.file()).map_err(|error| format!("{path}: {error}"))?;
    list.print_summary();
    Ok(list.differences == 0)
}

/// One letter or a few for each rule, name and number.
fn add_listed(list: &mut List) {
    let telling = fragments::SAMPLES.iter().chain(fragments::TELLING);
    telling.for_each(|letter| list.add(letter.as_bytes()));
    letters::TELLING.iter().for_each(|letter| list.add(letter));
    for name in NAMES {
        for number in ["", "0", "1", "-12", "65536"] {
            list.add(format!("{{a\\{name}{number} b}}").as_bytes());
        }
        let [seven, eight] = [7, 8].map(|number| format!("\\{name}{number}"));
        list.add(format!("{{{{\\fonttbl{seven} A;}}{{\\colortbl{eight}\\blue9}}b}}").as_bytes());
    }
    for number in NUMBERS {
        list.add(format!("{{\\b{number} a}}").as_bytes());
        // The others are refused by 5 whatever the word is.
        if number.parse::<i32>().is_err() {
            continue;
        }
        for name in ["u", "fs", "sl", "sb", "f"] {
            list.add(format!("{{\\{name}{number} a}}").as_bytes());
        }
        list.add(format!("{{{{\\fonttbl\\f{number} A;}}{{\\colortbl\\blue1}}}}").as_bytes());
        list.add(format!("{{{{\\colortbl\\red{number}\\blue1}}a}}").as_bytes());
    }
    const ABOVE_127: [&[u8]; 6] =
        [b"\x80", b"{\xff}", b"{\xc3\xa9}", b"{\\'\xe9}", b"{\\b-}\x80", b"\xa0"];
    ABOVE_127.iter().for_each(|letter| list.add(letter));
}

/// Both sides of each limit that a letter for the extractor can meet.
fn add_limits(list: &mut List) {
    for count in [62, 63, 64] {
        list.add(format!("{}}}", "{".repeat(count)).as_bytes());
        list.add(format!("{}a{}", "{".repeat(count), "}".repeat(count)).as_bytes());
        list.add(format!("{}\\*a{}", "{".repeat(count), "}".repeat(count)).as_bytes());
    }
    for count in [255, 256, 257] {
        let fonts: String = (0..count).map(|key| format!("\\f{key}")).collect();
        let colours = "\\red7\\blue255".repeat(count);
        list.add(format!("{{{{\\fonttbl{fonts} A;}}a}}").as_bytes());
        list.add(format!("{{{{\\fonttbl{fonts} A;}}{{\\fonttbl B;}}a}}").as_bytes());
        list.add(format!("{{{{\\colortbl{colours}}}a}}").as_bytes());
        list.add(format!("{{{{\\colortbl{colours}\\blue256}}a}}").as_bytes());
    }
    for count in [127, 128, 129] {
        let blocks: String = (0..count).map(|size| format!("\\fs{size} a")).collect();
        list.add(format!("{{{blocks}}}").as_bytes());
    }
    for tokens in [1_023, 1_024, 1_025] {
        list.add(&repeated(b"}{", tokens));
        list.add(&repeated(b"\\\n", 2 * (tokens - 2) + 2));
        list.add(&repeated(b"\\u65 ", 5 * (tokens - 2) + 2));
    }
    for size in [INPUT - 1, INPUT, INPUT + 1, SOURCE_LIMIT, SOURCE_LIMIT + 1] {
        list.add(&repeated(b"text and more of it ", size));
    }
    for unit in ["a", "\\u8212 text", "{\\b bold}  plain", "{\\*\\x hidden}", "\\u-9999 "] {
        list.add(&repeated(unit.as_bytes(), INPUT));
    }
    list.add(&[b"{a}".as_slice(), &[b' '; INPUT]].concat());
}

/// Letters at random until the list has `count` more of them or the file is full.
fn add_drawn(list: &mut List, seed: u64, count: usize) {
    let mut random = Random::new(seed ^ 0x7EC7_0126);
    let enough = list.listings.len() + count;
    for _ in 0..20 * count {
        if list.listings.len() >= enough {
            break;
        }
        let letter = match random.below(10) {
            0..3 => fragments::soup(&mut random, 12),
            3..7 => reading_grammar::letter(&mut random, 60),
            7 => reading_grammar::letter(&mut random, 600),
            _ => {
                let letter = reading_grammar::letter(&mut random, 80);
                mutate::mutated(&mut random, &letter, INPUT)
            }
        };
        list.add(&letter);
    }
}

impl List {
    fn add(&mut self, letter: &[u8]) {
        let key = (letter.len(), letter.to_vec());
        let listing = listing::of_model(letter);
        let bytes = 8 + letter.len() + listing.len();
        if self.listings.contains_key(&key) || self.bytes + bytes > LARGEST_FILE {
            return;
        }
        let (refusal, by_crate) = self.check(letter, &listing);
        self.bytes += bytes;
        self.listings.insert(key, (listing, refusal, by_crate));
    }

    /// The refusal number, and whether the crate covers the letter; where it does not give the
    /// listing, that is told.
    fn check(&mut self, letter: &[u8], listing: &[u8]) -> (u32, bool) {
        if letter.len() > INPUT {
            return (1, false);
        }
        let (answer, met) = model::read(letter, Kind::Plain, &listing::rooms());
        let refusal = answer.refusal.number;
        let limited = matches!(refusal, 7 | 16..);
        if limited || Outside::of(&answer, &met).is_some() {
            return (refusal, false);
        }
        let text = std::str::from_utf8(letter).expect("a letter for the crate is ASCII");
        let says = oracle::whole_readings(text, false);
        let same = |reading: &Reading<_>| match reading {
            Reading::Answered(whole) => listing::of_crate(whole, &answer) == listing,
            Reading::Panicked(_) => false,
        };
        if !says.iter().all(same) {
            self.differences += 1;
            println!("{}", report::model_against_crate(letter, Kind::Plain, &answer, &says));
        }
        (refusal, true)
    }

    fn file(&self) -> Vec<u8> {
        let mut file = Vec::with_capacity(self.bytes);
        for ((length, letter), (listing, ..)) in &self.listings {
            file.extend_from_slice(&(*length as u32).to_le_bytes());
            file.extend_from_slice(letter);
            file.extend_from_slice(&(listing.len() as u32).to_le_bytes());
            file.extend_from_slice(listing);
        }
        file
    }

    fn print_summary(&self) {
        let mut spread: Spread = [[0; 2]; 21];
        for (_, refusal, by_crate) in self.listings.values() {
            spread[*refusal as usize][usize::from(!by_crate)] += 1;
        }
        println!("by refusal number, listings from the crate and from the model alone:");
        for (number, [by_crate, by_model]) in spread.iter().enumerate() {
            println!("{number:4} {by_crate:6} {by_model:6}");
        }
        println!("20 cannot be met: no letter gives more bytes of text than it has");
        let longest = self.listings.keys().map(|(length, _)| *length).max().unwrap_or(0);
        println!("longest letter {longest} bytes");
        println!(
            "{} letters, {} bytes, {} differences",
            self.listings.len(),
            self.bytes,
            self.differences
        );
    }
}
