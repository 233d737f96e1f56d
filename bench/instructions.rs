//! Instructions by valgrind's callgrind: they do not move with the machine's load.

use crate::lent::{Lent, Sizes};
use crate::letters;
use crate::lists::KINDS;
use crate::read::{self, Row};
use crate::table::{count, figure, Table};
use common::oracle::wrapping;
use std::hint::black_box;
use std::process::{Command, Stdio};

/// The modes by which this program starts itself.
pub const READ: &str = "calls-read";
pub const CHECK: &str = "calls-check";
/// Bytes that are read in the shorter of two runs.
const BYTES: usize = 120_000;

const HEADING: &str = "\
## Instructions

Instructions for each byte, counted by valgrind's callgrind: in a run of as many calls as read some
120,000 bytes, and in one of twice as many; the difference is what the calls take without the
program's start. Where a call takes over 20 ms, in a run of one call and in one of none. \"times\" is
how many times our instructions the other side takes. They do not move with the machine's load; how
long each one takes they do not say.
";

/// Prints the tables, or that there is no valgrind; false if the sides differ on a letter.
pub fn run() -> bool {
    println!("\n{HEADING}");
    if counted(READ, &[0, 0]).is_none() {
        println!("No valgrind here, or none that runs: `apt-get install valgrind`.");
        return true;
    }
    // One round tells which calls are slow.
    let Some(rows) = read::rows(1) else {
        return false;
    };
    let heads = ["letter", "bytes", "crate", "enough", "times", "extractor's", "times"];
    let mut table = Table::new(&heads);
    rows.iter().enumerate().for_each(|(place, row)| table.row(of_letter(place, row)));
    table.print();
    println!();
    let mut table = Table::new(&["list", "bytes", "codec", "ours", "times"]);
    (0..KINDS.len()).for_each(|place| table.row(of_list(place)));
    table.print();
    true
}

fn of_letter(place: usize, row: &Row) -> Vec<String> {
    let bytes = row.letter.bytes.len();
    let of_crate = per_byte(READ, bytes, row.is_slow(), &[place]);
    let mut cells = vec![row.letter.kind.to_string(), count(bytes), figure(of_crate)];
    for sizes in row.sizes() {
        let words = |sizes: Sizes| [&[place], sizes.as_slice()].concat();
        let ours = sizes.map_or(f64::NAN, |sizes| per_byte(READ, bytes, false, &words(sizes)));
        cells.extend([figure(ours), figure(of_crate / ours)]);
    }
    cells
}

fn of_list(place: usize) -> Vec<String> {
    let bytes = KINDS[place].list().len();
    let [codec, ours] = [0, 1].map(|side| per_byte(CHECK, bytes, false, &[place, side]));
    let figures = [codec, ours, codec / ours].map(figure);
    [vec![KINDS[place].name.to_string(), count(bytes)], figures.to_vec()].concat()
}

fn per_byte(mode: &str, bytes: usize, is_slow: bool, words: &[usize]) -> f64 {
    let fewer = if is_slow { 0 } else { (BYTES / bytes).max(1) };
    let more = (2 * fewer).max(1);
    let run = |calls: usize| {
        let words = [&[calls], words].concat();
        counted(mode, &words).map_or(f64::NAN, |instructions| instructions as f64)
    };
    (run(more) - run(fewer)) / ((more - fewer) * bytes) as f64
}

/// Instructions of this program in such a mode.
fn counted(mode: &str, words: &[usize]) -> Option<u64> {
    let output = Command::new("valgrind")
        .args(["--tool=callgrind", "--callgrind-out-file=/dev/null"])
        .arg(std::env::current_exe().ok()?)
        .arg(mode)
        .args(words.iter().map(usize::to_string))
        .stdin(Stdio::null())
        .output()
        .ok()?;
    let said = String::from_utf8_lossy(&output.stderr).into_owned();
    let line = said.lines().find(|line| line.contains("Collected :"))?;
    line.rsplit(':').next()?.trim().parse().ok()
}

/// Makes so many calls on a letter, by its place: ours in rooms of five sizes, the crate's if no
/// sizes are named.
pub fn read(words: &[String]) -> Result<bool, String> {
    let numbers = numbers(words)?;
    let [calls, place, sizes @ ..] = numbers.as_slice() else {
        return Err("a number of calls and a letter".into());
    };
    let letters = letters::all();
    let letter = letters.get(*place).ok_or("no such letter")?;
    if sizes.is_empty() {
        let text = letter.text();
        (0..*calls).for_each(|_| _ = black_box(wrapping::scan_and_parse(black_box(text))));
        return Ok(true);
    }
    let mut rooms = Lent::new(&Sizes::try_from(sizes).map_err(|_| "five rooms")?);
    (0..*calls).for_each(|_| _ = black_box(rooms.read(black_box(&letter.bytes))));
    Ok(true)
}

/// Makes so many checks of a list, by its place: the codec's, or ours for a side of 1.
pub fn check(words: &[String]) -> Result<bool, String> {
    let numbers = numbers(words)?;
    let [calls, place, side] = numbers.as_slice() else {
        return Err("a number of calls, a list and a side".into());
    };
    let list = KINDS.get(*place).ok_or("no such list")?.list();
    match side {
        0 => (0..*calls).for_each(|_| _ = black_box(codec::check(black_box(&list)))),
        _ => (0..*calls).for_each(|_| _ = black_box(library::check(black_box(&list)))),
    }
    Ok(true)
}

fn numbers(words: &[String]) -> Result<Vec<usize>, String> {
    words.iter().map(|word| word.parse().map_err(|_| format!("{word}: no number"))).collect()
}
