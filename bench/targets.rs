//! What the figures should be, and whether they are.

use crate::growth::Growth;
use crate::letters::{Size, LINE_BREAKS, MAIL};
use crate::processes::Processes;
use crate::read::{Row, CRATE, EXTRACTORS, NEEDED, STANDARD};
use crate::stored;
use crate::table::{figure, Table};

/// How many times the crate's speed: ordinary mail in rooms of just enough, and in the extractor's.
const ENOUGH: f64 = 5.5;
const ORDINARY: f64 = 5.0;
const WORST: f64 = 300.0;
/// How many times the codec's speed.
const CHECK: f64 = 1.1;
/// How many times as long a byte may take in a long letter.
const GROWTH: f64 = 1.3;

/// A figure and what it is of.
type Named<'a> = (f64, &'a str);

pub struct Targets(Table);

impl Targets {
    pub fn new() -> Self {
        Targets(Table::new(&["target", "measured", "at worst", "met"]))
    }

    pub fn of_reading(&mut self, rows: &[Row], growths: &[Growth]) {
        let times = |kind: &'static str, size: Size, side: usize| {
            let of_kind = |row: &&Row| row.letter.kind == kind && row.letter.size == size;
            rows.iter().find(of_kind).map(|row| (row.times.times(side, CRATE), kind))
        };
        let what = format!("mail of 2 KB, rooms just enough: at least {ENOUGH} times the crate");
        self.at_least(what, ENOUGH, times(MAIL, Size::Short, NEEDED));
        let what = format!("mail of 2 KB, extractor's rooms: at least {ORDINARY} times the crate");
        self.at_least(what, ORDINARY, times(MAIL, Size::Short, EXTRACTORS));
        let what = format!("mail of 2 KB, standard reading: at least {ORDINARY} times the crate");
        self.at_least(what, ORDINARY, times(MAIL, Size::Short, STANDARD));
        let what = format!("60,000 bytes of line breaks: at least {WORST} times the crate");
        self.at_least(what, WORST, times(LINE_BREAKS, Size::Long, NEEDED));
        let growths = growths.iter().map(|growth| (growth.ours(), growth.kind()));
        if let Some(worst) = growths.max_by(|a, b| a.0.total_cmp(&b.0)) {
            let what =
                format!("bytes of a long letter: at most {GROWTH} times those of a short one");
            self.push(what, worst, worst.0 <= GROWTH);
        }
    }

    pub fn of_stored(&mut self, rows: &[stored::Row]) {
        let all = rows.iter().map(|row| (row.ours(), row.name));
        let what = format!("the check of stored lists: at least {CHECK} times the codec's speed");
        self.at_least(what, CHECK, all);
    }

    pub fn of_processes(&mut self, processes: &Processes) {
        for name in ["catdoc", "unrtf"] {
            let what = format!("the extractor as a process: at least {name}'s speed");
            let all = processes.times(name);
            self.at_least(what, 1.0, all.iter().map(|(times, letter)| (*times, letter.as_str())));
        }
    }

    pub fn print(&self) {
        if self.0.is_empty() {
            return;
        }
        println!("\n## Targets\n");
        self.0.print();
    }

    /// Says nothing where there is no figure.
    fn at_least<'a>(&mut self, what: String, least: f64, all: impl IntoIterator<Item = Named<'a>>) {
        let figures = all.into_iter().filter(|(times, _)| !times.is_nan());
        if let Some(worst) = figures.min_by(|a, b| a.0.total_cmp(&b.0)) {
            self.push(what, worst, worst.0 >= least);
        }
    }

    fn push(&mut self, what: String, (times, of): Named, is_met: bool) {
        let met = if is_met { "met" } else { "MISSED" };
        self.0.row(vec![what, figure(times), of.to_string(), met.to_string()]);
    }
}
