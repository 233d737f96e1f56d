//! The cutter against the clock.

use crate::clock::{time, Times};
use crate::letters::{self, Letter};
use crate::table::{count, figure, Table};
use common::cut::{are_told, Cut, PLAIN};
use common::oracle::wrapping;
use model::{EXTRACTOR, TOKENS, TOKEN_WORDS};
use std::hint::black_box;

const CRATE: usize = 0;

const HEADING: &str = "\
## Cutting alone

As for whole readings: `Lexer::scan` (crate), and `elduvarn_cut` for plain reading in a room of just
enough tokens and in the extractor's, of 1,024.
";

/// A letter with its rooms and the times of its calls.
struct Row {
    letter: Letter,
    tokens: usize,
    rooms: [Option<Vec<u32>>; 2],
    times: Times<3>,
}

/// True if both sides agree on every letter.
pub fn run(rounds: usize) -> bool {
    let rows: Option<Vec<Row>> = letters::all().into_iter().map(Row::new).collect();
    let Some(mut rows) = rows else {
        return false;
    };
    for _ in 0..rounds {
        rows.iter_mut().for_each(Row::round);
    }
    println!("\n{HEADING}");
    let heads = ["letter", "bytes", "tokens", "crate", "enough", "times", "extractor's", "times"];
    let mut table = Table::new(&heads);
    rows.iter().for_each(|row| table.row(row.cells()));
    table.print();
    true
}

impl Row {
    /// None, and a line that says so, if the sides differ.
    fn new(letter: Letter) -> Option<Row> {
        let Cut::Tokens(told) = wrapping::cut(letter.text()) else {
            panic!("the crate refuses {}", letter.kind);
        };
        let tokens = told.len();
        let mut needed = vec![0; tokens * TOKEN_WORDS];
        let wide = (tokens <= EXTRACTOR[TOKENS]).then(|| vec![0; EXTRACTOR[TOKENS] * TOKEN_WORDS]);
        let answer = library::cut(&letter.bytes, PLAIN, &mut needed);
        let (records, _) = needed.as_chunks::<TOKEN_WORDS>();
        if answer != [0, 0, tokens as u32] || !are_told(&told, records) {
            eprintln!("bench: DIFFERENCE: {} of {} bytes", letter.kind, letter.bytes.len());
            return None;
        }
        Some(Row { letter, tokens, rooms: [Some(needed), wide], times: Times::new() })
    }

    fn round(&mut self) {
        let Row { letter, rooms, times, .. } = self;
        let (letter, text) = (letter.bytes.as_slice(), letter.text());
        times.round(|side| match side {
            CRATE => time(|| _ = black_box(wrapping::scan(black_box(text)))),
            _ => rooms[side - 1].as_mut().map_or(f64::NAN, |room| {
                time(|| _ = black_box(library::cut(black_box(letter), PLAIN, room)))
            }),
        });
    }

    fn cells(&self) -> Vec<String> {
        let bytes = self.letter.bytes.len();
        let mut cells = vec![self.letter.kind.to_string(), count(bytes), count(self.tokens)];
        for side in 0..3 {
            cells.push(figure(self.times.median(side) / bytes as f64));
            if side != CRATE {
                cells.push(figure(self.times.times(side, CRATE)));
            }
        }
        cells
    }
}
