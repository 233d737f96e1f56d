//! Our whole reading against rtf-parser 0.4.3 and against the model.
//!
//!   read      the parts of a comparison
//!   judge     one letter on all sides
//!   hidden    the parts of a comparison of pairs; pairs, how they are drawn; veil, their premise
//!   alike     one pair on each side
//!   standard  the parts of a comparison of standard reading; standard_judge, one letter or pair;
//!             standard_seen, what they covered
//!   parts     what the comparisons share; queue, calls that wait
//!   outside   what 01 leaves out of the equality with the crate, and what the crate does there
//!   small     rooms that may not hold the answer
//!   lent      what is lent for a call, and what it must hold
//!   ours      our library's C interface, or the model in its place
//!   seen      what the letters covered
//!   report    how answers are printed
//!   vectors   the file for a program that replays listings; listing, their form

mod alike;
mod hidden;
mod judge;
mod lent;
mod listing;
mod ours;
mod outside;
mod pairs;
mod parts;
mod queue;
mod read;
mod report;
mod seen;
mod small;
mod standard;
mod standard_judge;
mod standard_seen;
mod vectors;
mod veil;

use common::program::{self, Plan};
use std::process::ExitCode;

const USAGE: &str = "\
modes: read [--model] [--seed N] [--count N] [--depth N], read-vectors FILE [--seed N] [--count N],
hidden [--model] [--seed N] [--count N], standard [--model] [--seed N] [--count N] [--depth N]";

fn main() -> ExitCode {
    program::run(USAGE, mode)
}

fn mode(mode: &str, words: &[String]) -> Result<bool, String> {
    assert_eq!(common::cut::NAMES, model::NAMES, "the two tables of names");
    match mode {
        "read" => Ok(read::run(&Plan::of(words, 1_000_000, 4)?)),
        "hidden" => {
            let [seed, count] = common::options(words, [("--seed", 1), ("--count", 300_000)])?;
            Ok(hidden::run(seed, count as usize))
        }
        "standard" => Ok(standard::run(&Plan::of(words, 500_000, 3)?)),
        "read-vectors" => {
            let (path, words) = words.split_first().ok_or("no file")?;
            let [seed, count] = common::options(words, [("--seed", 1), ("--count", 300)])?;
            vectors::write(path, seed, count as usize)
        }
        other => Err(format!("no mode {other}")),
    }
}
