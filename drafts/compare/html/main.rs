//! Our fragments of HTML against a model of request A8.
//!
//!   rule/    the model, a fragment read back, and rules with a fault each
//!   known    fragments and refusals told by hand
//!   parts    the parts of a comparison
//!   lists    listed block lists; drawn, lists and letters at random
//!   judge    a list, or a letter, on both sides
//!   call     what is asked, what is lent for it, what it must hold
//!   ours     our library's C interface, or the models in its place
//!   seen     what was covered
//!   report   how calls and answers are printed

mod call;
mod drawn;
mod judge;
mod known;
mod lists;
mod ours;
mod parts;
mod report;
mod seen;

use common::program::{self, Plan};
use std::process::ExitCode;

const USAGE: &str = "modes: html [--model] [--seed N] [--count N] [--depth N]";

fn main() -> ExitCode {
    program::run(USAGE, mode)
}

fn mode(mode: &str, words: &[String]) -> Result<bool, String> {
    match mode {
        "html" => Ok(parts::run(&Plan::of(words, 100_000, 5)?)),
        other => Err(format!("no mode {other}")),
    }
}
