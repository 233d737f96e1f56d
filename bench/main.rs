//! Our library against the clock, beside the crate, the codec of compare/stored and Debian's
//! programs. bench/run builds and starts it; what it prints is Markdown.
//!
//!   letters        what is read; lists, what is checked
//!   clock          rounds and medians
//!   lent           the rooms of a reading
//!   read, cut      whole readings and the cutter; growth, long letters against short ones
//!   instructions   the same letters and lists under callgrind
//!   stored         the check of stored lists
//!   processes      the extractor beside catdoc and unrtf
//!   targets        what the figures should be
//!   table          how they are printed

mod clock;
mod cut;
mod growth;
mod instructions;
mod lent;
mod letters;
mod lists;
mod processes;
mod read;
mod stored;
mod table;
mod targets;

use common::program;
use std::path::Path;
use std::process::ExitCode;
use targets::Targets;

const USAGE: &str = "parts: read cut instructions stored processes; options: --rounds N";
const PARTS: [&str; 5] = ["read", "cut", "instructions", "stored", "processes"];
/// A list's check and a process are short beside a round of letters: they get so many times more.
const MORE: usize = 3;

fn main() -> ExitCode {
    program::run(USAGE, mode)
}

fn mode(mode: &str, words: &[String]) -> Result<bool, String> {
    match (mode, words) {
        (instructions::READ, words) => instructions::read(words),
        (instructions::CHECK, words) => instructions::check(words),
        ("measure", [extractor, folder, words @ ..]) => {
            let (parts, options): (Vec<_>, Vec<_>) =
                words.iter().cloned().partition(|word| PARTS.contains(&word.as_str()));
            let [rounds] = common::options(&options, [("--rounds", 101)])?;
            measure(&parts, rounds.max(1) as usize, [extractor, folder].map(Path::new))
        }
        _ => Err(format!("no mode {mode} with these words")),
    }
}

/// Measures these parts, or all if none is named; false if two sides differ.
fn measure(parts: &[String], rounds: usize, places: [&Path; 2]) -> Result<bool, String> {
    let mut targets = Targets::new();
    println!("- rounds: {rounds}; of stored lists and of processes {}", MORE * rounds);
    for part in PARTS {
        if !parts.is_empty() && !parts.iter().any(|asked| asked == part) {
            continue;
        }
        // Progress goes beside the tables.
        eprintln!("bench: {part}");
        let are_equal = match part {
            "read" => reading(rounds, &mut targets),
            "cut" => cut::run(rounds),
            "instructions" => instructions::run(),
            "stored" => lists(MORE * rounds, &mut targets),
            _ => programs(MORE * rounds, places, &mut targets)?,
        };
        if !are_equal {
            return Ok(false);
        }
    }
    targets.print();
    Ok(true)
}

fn reading(rounds: usize, targets: &mut Targets) -> bool {
    let Some(rows) = read::rows(rounds) else {
        return false;
    };
    read::print(&rows);
    let growths = growth::all(&rows);
    growth::print(&growths);
    targets.of_reading(&rows, &growths);
    true
}

fn lists(rounds: usize, targets: &mut Targets) -> bool {
    let Some(rows) = stored::rows(rounds) else {
        return false;
    };
    stored::print(&rows);
    targets.of_stored(&rows);
    true
}

fn programs(
    rounds: usize,
    [extractor, folder]: [&Path; 2],
    targets: &mut Targets,
) -> Result<bool, String> {
    let processes = processes::run(rounds, extractor, folder);
    let processes = processes.map_err(|error| format!("{}: {error}", folder.display()))?;
    processes.print();
    targets.of_processes(&processes);
    Ok(true)
}
