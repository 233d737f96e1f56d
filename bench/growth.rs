//! Whether a long letter takes more time for each byte than a short one of its kind.

use crate::letters::Size;
use crate::read::{Row, CRATE, NEEDED};
use crate::table::{count, figure, Table};

const HEADING: &str = "\
## Long letters against short ones

How many times longer a byte takes in the long letter of a kind than in the short one, in the table
above: the median of the rounds' own ratios. A kind that takes the same time for each byte has 1; less
than 1 where the short letter's fixed costs show. Ours is in rooms of just enough. A table of 256 fonts
all but fills its short letter, while the long one is nearly all look-ups or names: there the ratio is
of two kinds of work, and with 32 fonts it is of one.
";

/// A kind, with how many times longer its bytes take in its long letter.
pub struct Growth<'a> {
    short: &'a Row,
    long: &'a Row,
}

pub fn all(rows: &[Row]) -> Vec<Growth<'_>> {
    let longs = rows.iter().filter(|row| row.letter.size == Size::Long);
    longs
        .filter_map(|long| {
            let is_pair =
                |row: &&Row| row.letter.kind == long.letter.kind && row.letter.size == Size::Short;
            Some(Growth { short: rows.iter().find(is_pair)?, long })
        })
        .collect()
}

pub fn print(all: &[Growth]) {
    println!("\n{HEADING}");
    let mut table = Table::new(&["letter", "short", "long", "crate", "ours"]);
    for growth in all {
        let bytes = [growth.short, growth.long].map(|row| count(row.letter.bytes.len()));
        let sides = [CRATE, NEEDED].map(|side| figure(growth.of(side)));
        let mut cells = vec![growth.kind().to_string()];
        cells.extend(bytes.into_iter().chain(sides));
        table.row(cells);
    }
    table.print();
}

impl Growth<'_> {
    pub fn kind(&self) -> &'static str {
        self.long.letter.kind
    }

    pub fn ours(&self) -> f64 {
        self.of(NEEDED)
    }

    fn of(&self, side: usize) -> f64 {
        let bytes = [self.short, self.long].map(|row| row.letter.bytes.len() as f64);
        self.long.times.longer(&self.short.times, side) * bytes[0] / bytes[1]
    }
}
