//! Our mail snippets against a model of request A12, and against the crate's texts.
//!
//!   rule      the model: over characters, and over any bytes
//!   known     snippets told by hand
//!   parts     the parts of a comparison; progress, how far a long one has come
//!   texts     listed texts; drawn, texts and letters at random
//!   judge     a text or a letter on both sides
//!   letters   what a letter's text is
//!   call      what is asked, what is lent for it, what it must hold
//!   ours      our library's C interface, or the models in its place
//!   seen      what was covered
//!   report    how calls and answers are printed

mod call;
mod drawn;
mod judge;
mod known;
mod letters;
mod ours;
mod parts;
mod progress;
mod report;
mod rule;
mod seen;
mod texts;

use common::program::{self, Plan};
use std::process::ExitCode;

const USAGE: &str = "modes: snippets [--model] [--seed N] [--count N] [--depth N]";

fn main() -> ExitCode {
    program::run(USAGE, mode)
}

fn mode(mode: &str, words: &[String]) -> Result<bool, String> {
    match mode {
        "snippets" => Ok(parts::run(&Plan::of(words, 100_000, 5)?)),
        other => Err(format!("no mode {other}")),
    }
}
