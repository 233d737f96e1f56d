//! Whole readings against the clock.

use crate::clock::{time, Times};
use crate::lent::{needed, Lent, Sizes};
use crate::letters::{self, Letter};
use crate::table::{count, figure, Table};
use common::oracle::wrapping;
use common::whole::{Document, Whole};
use model::EXTRACTOR;
use std::hint::black_box;

/// The sides, by their places in a sample.
pub const CRATE: usize = 0;
pub const NEEDED: usize = 1;
pub const EXTRACTORS: usize = 2;
pub const STANDARD: usize = 3;
/// A letter on which a call takes longer than this, in nanoseconds, is timed in fewer rounds.
const SLOW: f64 = 2e7;
const SLOW_ROUNDS: usize = 9;

const HEADING: &str = "\
## Whole reading

Nanoseconds for each byte of the letter, medians over the rounds. A round times each letter on each
side once, each time after a call that is not timed; where a call takes over 20 ms there are only 9
rounds. \"times\" is how many times the crate's speed, the median of the rounds' own ratios.

- crate: `Lexer::scan` and `Parser::parse`, with all that they allocate and free
- enough: `elduvarn_read_plain` in rooms of just enough records and bytes for the letter
- extractor's: the same in rooms of 1,024 tokens, 256 fonts, 256 colours, 128 blocks and 8,192 bytes
  of text, 53,248 bytes in all; a dash where the letter needs more
- standard: `elduvarn_read_standard` in rooms of just enough for what it reads; a dash where it
  refuses the letter

Rooms are allocated once and hold the answer of the call before. They are not cleared first: each
call sets what it leaves unused to zero, and that is part of its time.
";

/// A letter with the times of its calls.
pub struct Row {
    pub letter: Letter,
    pub document: Document,
    rooms: [Option<Lent>; 2],
    standard: Option<Lent>,
    pub times: Times<4>,
}

/// Every letter after so many rounds; none, and a line that says so, if the sides differ on one.
pub fn rows(rounds: usize) -> Option<Vec<Row>> {
    let mut rows: Vec<Row> = letters::all().into_iter().map(Row::new).collect::<Option<_>>()?;
    for _ in 0..rounds {
        rows.iter_mut().filter(|row| row.goes_on()).for_each(Row::round);
    }
    Some(rows)
}

pub fn print(rows: &[Row]) {
    println!("\n{HEADING}");
    let heads =
        ["letter", "bytes", "tokens", "blocks", "crate", "enough", "times", "extractor's", "times", "standard",
            "times"];
    let mut table = Table::new(&heads);
    rows.iter().for_each(|row| table.row(row.cells()));
    table.print();
}

impl Row {
    fn new(letter: Letter) -> Option<Row> {
        let Whole::Read(document) = wrapping::read(letter.text(), false) else {
            panic!("the crate refuses {}", letter.kind);
        };
        let standard = Lent::for_standard(&letter.bytes);
        let times = Times::new();
        let mut row = Row { rooms: [None, None], standard, letter, document, times };
        row.rooms = row.sizes().map(|sizes| Some(Lent::new(&sizes?)));
        let Row { rooms, letter, document, .. } = &mut row;
        if !rooms.iter_mut().flatten().all(|rooms| rooms.reads_as(&letter.bytes, document)) {
            eprintln!("bench: DIFFERENCE: {} of {} bytes", letter.kind, letter.bytes.len());
            return None;
        }
        Some(row)
    }

    /// Just enough, and the extractor's where they are enough.
    pub fn sizes(&self) -> [Option<Sizes>; 2] {
        let needed = needed(&self.document);
        let fits = needed.iter().zip(EXTRACTOR).all(|(count, room)| *count <= room);
        [Some(needed), fits.then_some(EXTRACTOR)]
    }

    /// Of the crate: ours has no such letter.
    pub fn is_slow(&self) -> bool {
        self.times.shortest(CRATE) > SLOW
    }

    fn goes_on(&self) -> bool {
        !self.is_slow() || self.times.rounds() < SLOW_ROUNDS
    }

    fn round(&mut self) {
        let Row { letter, rooms, standard, times, .. } = self;
        let (letter, text) = (letter.bytes.as_slice(), letter.text());
        times.round(|side| match side {
            CRATE => time(|| _ = black_box(wrapping::scan_and_parse(black_box(text)))),
            STANDARD => standard.as_mut().map_or(f64::NAN, |room| {
                time(|| _ = black_box(room.read_standard(black_box(letter))))
            }),
            _ => rooms[side - 1]
                .as_mut()
                .map_or(f64::NAN, |room| time(|| _ = black_box(room.read(black_box(letter))))),
        });
    }

    fn cells(&self) -> Vec<String> {
        let bytes = self.letter.bytes.len();
        let per_byte = |side: usize| figure(self.times.median(side) / bytes as f64);
        let times = |side: usize| figure(self.times.times(side, CRATE));
        vec![
            self.letter.kind.to_string(),
            count(bytes),
            count(self.document.tokens.len()),
            count(self.document.blocks.len()),
            per_byte(CRATE),
            per_byte(NEEDED),
            times(NEEDED),
            per_byte(EXTRACTORS),
            times(EXTRACTORS),
            per_byte(STANDARD),
            times(STANDARD),
        ]
    }
}
