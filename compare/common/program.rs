//! What the programs of a comparison share: a mode and its options, by words.

use crate::options;
use std::process::ExitCode;

/// What a comparison tries.
pub struct Plan {
    pub seed: u64,
    /// How many of each kind are drawn, and again as many damaged.
    pub count: usize,
    /// Parts of the longest sequences of which all are tried.
    pub depth: usize,
}

impl Plan {
    /// By words, with what stands for a count and a depth that no word names.
    pub fn of(words: &[String], count: u64, depth: u64) -> Result<Self, String> {
        let [seed, count, depth] =
            options(words, [("--seed", 1), ("--count", count), ("--depth", depth)])?;
        Ok(Plan { seed, count: count as usize, depth: depth as usize })
    }
}

/// Runs the mode that the words name: 0 if it says yes, 1 if no, 2 for words that it does not know.
pub fn run(usage: &str, mode: impl Fn(&str, &[String]) -> Result<bool, String>) -> ExitCode {
    // Which side answers is settled when a program is built: compare/run reads --model.
    let words: Vec<String> = std::env::args().skip(1).filter(|word| word != "--model").collect();
    let answer =
        words.split_first().ok_or("no mode".into()).and_then(|(name, words)| mode(name, words));
    match answer {
        Ok(true) => ExitCode::SUCCESS,
        Ok(false) => ExitCode::from(1),
        Err(message) => {
            eprintln!("{message}\n{usage}");
            ExitCode::from(2)
        }
    }
}
