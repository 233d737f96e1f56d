//! The check of a stored list against the clock.

use crate::clock::{time, Times};
use crate::lists::{Kind, KINDS};
use crate::table::{count, figure, Table};
use std::hint::black_box;

const CODEC: usize = 0;
const OURS: usize = 1;

const HEADING: &str = "\
## The check of stored lists

Nanoseconds for each byte, and million bytes each second, of the check of `compare/stored/codec` (which
is plain Rust and shares no code with ours, with `std::str::from_utf8` for the text) and of
`elduvarn_stored_check`; medians over the rounds. \"times\" is how many times the codec's speed, the
median of the rounds' own ratios. Neither side needs rooms.
";

/// A list and the times of its checks.
pub struct Row {
    pub name: &'static str,
    blocks: usize,
    list: Vec<u8>,
    times: Times<2>,
}

/// Every list after so many rounds; none, and a line that says so, if a side refuses one.
pub fn rows(rounds: usize) -> Option<Vec<Row>> {
    let mut rows: Vec<Row> = KINDS.iter().map(Row::new).collect::<Option<_>>()?;
    for _ in 0..rounds {
        rows.iter_mut().for_each(Row::round);
    }
    Some(rows)
}

pub fn print(rows: &[Row]) {
    println!("\n{HEADING}");
    let heads = ["list", "bytes", "blocks", "codec", "MB/s", "ours", "MB/s", "times"];
    let mut table = Table::new(&heads);
    rows.iter().for_each(|row| table.row(row.cells()));
    table.print();
}

impl Row {
    fn new(kind: &Kind) -> Option<Row> {
        let (name, list) = (kind.name, kind.list());
        if codec::check(&list).is_err() || library::check(&list) != 0 {
            eprintln!("bench: DIFFERENCE: {name}: a side refuses the list");
            return None;
        }
        Some(Row { name, blocks: kind.blocks, list, times: Times::new() })
    }

    fn round(&mut self) {
        let Row { list, times, .. } = self;
        let list = list.as_slice();
        times.round(|side| match side {
            CODEC => time(|| _ = black_box(codec::check(black_box(list)))),
            _ => time(|| _ = black_box(library::check(black_box(list)))),
        });
    }

    /// How many times the codec's speed.
    pub fn ours(&self) -> f64 {
        self.times.times(OURS, CODEC)
    }

    fn cells(&self) -> Vec<String> {
        let mut cells = vec![self.name.to_string(), count(self.list.len()), count(self.blocks)];
        for side in [CODEC, OURS] {
            let per_byte = self.times.median(side) / self.list.len() as f64;
            cells.extend([format!("{per_byte:.3}"), count((1e3 / per_byte) as usize)]);
        }
        cells.push(figure(self.ours()));
        cells
    }
}
