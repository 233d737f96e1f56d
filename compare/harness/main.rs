//! Our cutter against rtf-parser 0.4.3 and against the model.
//!
//!   compare   the parts of a comparison
//!   judge     one letter on all sides
//!   limits    refusals 1 and 2
//!   ours      our library's C interface
//!   seen      what the letters covered
//!   report    how a difference is printed

mod compare;
mod judge;
mod limits;
mod ours;
mod report;
mod seen;

use common::program::{self, Plan};
use std::process::ExitCode;

const USAGE: &str = "modes: compare [--seed N] [--count N] [--depth N]";

fn main() -> ExitCode {
    program::run(USAGE, mode)
}

fn mode(mode: &str, words: &[String]) -> Result<bool, String> {
    match mode {
        "compare" => Ok(compare::run(&Plan::of(words, 1_000_000, 6)?)),
        other => Err(format!("no mode {other}")),
    }
}
