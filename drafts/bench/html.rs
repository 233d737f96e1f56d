//! Fragments of HTML against the clock.

use crate::clock::{time, Times};
use crate::letters;
use crate::lists::KINDS;
use crate::table::{count, figure, Table};
use codec::{BLOCK_WORDS, LENGTH, PLACE};
use std::hint::black_box;

const CHARACTERS: usize = 0;
const RUNS: usize = 1;
const CHECKED: usize = 2;
const OURS: usize = 3;
const SIDES: usize = 4;

const FLAGS: usize = 3;
const SIZE: usize = 65_536;

const HEADING: &str = "\
## Fragments of HTML

Million bytes of text each second: three writers in plain Rust, and `elduvarn_html`; medians over the
rounds. \"chars\" pushes each character or its escape, \"runs\" copies what stands between two escapes at
once; both take their text for UTF-8 and check nothing. \"checked\" is \"runs\" behind the rules of refusals
24 and 27, by the codec of `compare/stored` and a search for control characters: what ours checks, too.
\"times\" is how many times the speed of the one before it ours has, the median of the rounds' own ratios.
All write into a room that is lent again and again, ours into one of just enough.
";

struct List {
    name: &'static str,
    blocks: Vec<u32>,
    text: Vec<u8>,
}

/// A list, its fragment's length and the times of its writings.
struct Row {
    list: List,
    fragment: usize,
    times: Times<SIDES>,
}

/// Prints the table; false, and a line that says so, if two sides differ on a list.
pub fn run(rounds: usize) -> bool {
    let Some(mut rows) = lists().into_iter().map(Row::new).collect::<Option<Vec<_>>>() else {
        return false;
    };
    for _ in 0..rounds {
        rows.iter_mut().for_each(Row::round);
    }
    println!("\n{HEADING}");
    let heads = [
        "list", "text", "blocks", "HTML", "ours", "chars", "times", "runs", "times", "checked",
        "times",
    ];
    let mut table = Table::new(&heads);
    rows.iter().for_each(|row| table.row(row.cells()));
    table.print();
    true
}

/// Mail as it is read, blocks of stored lists, and texts of one sort in a single block.
fn lists() -> Vec<List> {
    const TEXTS: [(&str, &str); 4] = [
        ("plain text", "The quick brown fox jumps over the lazy dog. "),
        ("markup", "<a href=\"x\">fish &amp; chips</a>\n"),
        ("specials alone", "&<>\"\n"),
        ("not ASCII", "\u{417}\u{434}\u{440}\u{430}\u{432}\u{441}\u{442}\u{432}\u{443}\u{439}, \u{4e2d}\u{6587} \u{1f600}. "),
    ];
    let mail = [("mail, 2 KB", 2_048), ("mail, 64 KB", SIZE)].map(|(name, size)| mail(name, size));
    let stored = KINDS.iter().filter(|kind| kind.blocks > 1).map(|kind| {
        let list = kind.list();
        let mut blocks = vec![0; kind.blocks * BLOCK_WORDS];
        let mut text = vec![0; list.len()];
        let counts = codec::read(&list, &mut blocks, &mut text).expect("a good list");
        text.truncate(counts.text);
        List { name: kind.name, blocks, text }
    });
    let texts = TEXTS.map(|(name, unit)| {
        let text = unit.repeat(SIZE / unit.len()).into_bytes();
        let mut record = [0; BLOCK_WORDS];
        record[LENGTH] = text.len() as u32;
        List { name, blocks: record.to_vec(), text }
    });
    mail.into_iter().chain(stored).chain(texts).collect()
}

/// The list that ordinary mail is read as, by the specification.
fn mail(name: &'static str, size: usize) -> List {
    let letter = letters::mail(size);
    let mut words = [8, 3, 1, BLOCK_WORDS].map(|width| vec![0; width * size]);
    let mut text = vec![0; 2 * size];
    let slices =
        library::Slices { words: words.each_mut().map(Vec::as_mut_slice), text: &mut text };
    let [refusal, .., blocks, bytes] = library::read_standard(&letter, slices);
    assert_eq!(refusal, 0, "mail is read");
    text.truncate(bytes as usize);
    let [.., mut records] = words;
    records.truncate(BLOCK_WORDS * blocks as usize);
    List { name, blocks: records, text }
}

impl Row {
    fn new(list: List) -> Option<Row> {
        let by_characters = list.written(String::new(), characters);
        let by_runs = list.written(String::new(), runs);
        let mut ours = vec![0; by_runs.len()];
        let told = library::html(&list.blocks, &list.text, &mut ours);
        let same = told == [0, ours.len() as u64] && ours == by_runs.as_bytes();
        if !same || by_runs != by_characters || !list.is_good() {
            eprintln!("bench: DIFFERENCE: {}: two sides differ on its fragment", list.name);
            return None;
        }
        Some(Row { list, fragment: ours.len(), times: Times::new() })
    }

    fn round(&mut self) {
        let Row { list, fragment, times } = self;
        let mut room = vec![0; *fragment];
        let mut string = String::with_capacity(*fragment);
        times.round(|side| {
            let list = black_box(&*list);
            match side {
                CHARACTERS => {
                    time(|| string = list.written(std::mem::take(&mut string), characters))
                }
                RUNS => time(|| string = list.written(std::mem::take(&mut string), runs)),
                CHECKED => time(|| {
                    if list.is_good() {
                        string = list.written(std::mem::take(&mut string), runs);
                    }
                }),
                _ => time(|| _ = black_box(library::html(&list.blocks, &list.text, &mut room))),
            }
        });
        black_box((&room, &string));
    }

    fn cells(&self) -> Vec<String> {
        let speed = |side| {
            let bytes = self.list.text.len() as f64;
            count((1e3 * bytes / self.times.median(side)) as usize)
        };
        let mut cells = vec![
            self.list.name.to_string(),
            count(self.list.text.len()),
            count(self.list.blocks.len() / BLOCK_WORDS),
            count(self.fragment),
            speed(OURS),
        ];
        for side in [CHARACTERS, RUNS, CHECKED] {
            cells.extend([speed(side), figure(self.times.times(OURS, side))]);
        }
        cells
    }
}

impl List {
    /// The fragment in a string that is lent, each text put by a way.
    fn written(&self, mut room: String, put: fn(&mut String, &str)) -> String {
        const MARKS: [(u32, &str, &str); 6] = [
            (1, "<b>", "</b>"),
            (2, "<i>", "</i>"),
            (4, "<u>", "</u>"),
            (8, "<sup>", "</sup>"),
            (16, "<sub>", "</sub>"),
            (64, "<s>", "</s>"),
        ];
        room.clear();
        for record in self.blocks.chunks_exact(BLOCK_WORDS) {
            let set = || MARKS.iter().filter(|(flag, ..)| record[FLAGS] & flag != 0);
            let text = &self.text[record[PLACE] as usize..][..record[LENGTH] as usize];
            room.push_str("<span>");
            set().for_each(|(_, open, _)| room.push_str(open));
            // `is_good` has seen to it, where it is asked.
            put(&mut room, unsafe { std::str::from_utf8_unchecked(text) });
            set().rev().for_each(|(.., close)| room.push_str(close));
            room.push_str("</span>");
        }
        room
    }

    /// Neither 24 nor 27.
    fn is_good(&self) -> bool {
        let written = codec::write(&self.blocks, &self.text, &mut []);
        let control = |byte: &u8| *byte < 32 && *byte != b'\t' && *byte != b'\n';
        written != Err(codec::Refusal::StoredField) && !self.text.iter().any(control)
    }
}

fn characters(room: &mut String, text: &str) {
    for character in text.chars() {
        match escape(character) {
            Some(escape) => room.push_str(escape),
            None => room.push(character),
        }
    }
}

fn runs(room: &mut String, text: &str) {
    let mut start = 0;
    for (place, byte) in text.bytes().enumerate() {
        if let Some(escape) = escape(char::from(byte)) {
            room.push_str(&text[start..place]);
            room.push_str(escape);
            start = place + 1;
        }
    }
    room.push_str(&text[start..]);
}

fn escape(character: char) -> Option<&'static str> {
    match character {
        '&' => Some("&amp;"),
        '<' => Some("&lt;"),
        '>' => Some("&gt;"),
        '"' => Some("&quot;"),
        '\n' => Some("<br>"),
        _ => None,
    }
}
