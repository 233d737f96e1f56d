//! Our stored form against the codec of codec/.
//!
//!   parts    the parts of a comparison
//!   lists    listed lists, and how a list is put together
//!   drawn    records at random; damage, the same with damage
//!   judge    a list or records on both sides
//!   rooms    sizes of rooms
//!   call     what is asked, what is lent for it, what it must hold
//!   ours     our library's C interface, or the codec in its place
//!   seen     what was covered
//!   report   how calls and answers are printed

mod call;
mod damage;
mod drawn;
mod judge;
mod lists;
mod ours;
mod parts;
mod report;
mod rooms;
mod seen;

use common::program::{self, Plan};
use std::process::ExitCode;

const USAGE: &str = "modes: stored [--model] [--seed N] [--count N] [--depth N]";

fn main() -> ExitCode {
    program::run(USAGE, mode)
}

fn mode(mode: &str, words: &[String]) -> Result<bool, String> {
    match mode {
        "stored" => Ok(parts::run(&Plan::of(words, 500_000, 5)?)),
        other => Err(format!("no mode {other}")),
    }
}
