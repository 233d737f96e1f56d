//! The crate's answers in our form. The crate is linked twice, with overflow checks off and on.

use crate::cut::{Cut, NAMES};
use crate::mended::{Mended, Placed};
use crate::whole::Whole;
use std::cell::RefCell;
use std::panic::{self, UnwindSafe};

pub mod wrapping {
    use rtf_parser_wrap as rtf_parser;
    include!("oracle_tokens.rs");
    include!("oracle_reading.rs");
}

pub mod checked {
    use rtf_parser_checked as rtf_parser;
    include!("oracle_tokens.rs");
    include!("oracle_reading.rs");
}

/// What the crate did with a letter.
#[derive(Debug, PartialEq, Eq)]
pub enum Reading<T = Cut> {
    Answered(T),
    Panicked(String),
}

thread_local! {
    static LAST_PANIC: RefCell<String> = const { RefCell::new(String::new()) };
}

/// What the crate makes of a letter, by paragraphs of the mended one. Keeps the message of a panic
/// for the report instead of printing it at once.
fn caught<T: Placed>(
    source: &str,
    paragraphs: bool,
    read: impl FnOnce(&str) -> T + UnwindSafe,
) -> Reading<T> {
    let answer = panic::catch_unwind(|| {
        if !paragraphs {
            return read(source);
        }
        let mended = Mended::new(source);
        mended.told(read(&mended.letter))
    });
    match answer {
        Ok(answer) => Reading::Answered(answer),
        Err(_) => Reading::Panicked(LAST_PANIC.with_borrow(String::clone)),
    }
}

/// Runs `work` with the crate's panics kept quiet.
pub fn quietly<T>(work: impl FnOnce() -> T) -> T {
    let usual = panic::take_hook();
    panic::set_hook(Box::new(|info| LAST_PANIC.set(info.to_string())));
    let result = work();
    panic::set_hook(usual);
    result
}

pub fn wrapping_reading(source: &str, paragraphs: bool) -> Reading {
    caught(source, paragraphs, wrapping::cut)
}

pub fn checked_reading(source: &str, paragraphs: bool) -> Reading {
    caught(source, paragraphs, checked::cut)
}

/// What the two builds make of a letter, overflow checks off and on.
pub fn whole_readings(source: &str, paragraphs: bool) -> [Reading<Whole>; 2] {
    [
        caught(source, paragraphs, |source| wrapping::read(source, paragraphs)),
        caught(source, paragraphs, |source| checked::read(source, paragraphs)),
    ]
}

/// Our numbers for the crate's words are the places of their names in the table.
pub fn check_names() {
    for (number, name) in NAMES.iter().enumerate() {
        let Cut::Tokens(records) = wrapping::cut(&format!("{{\\{name}}}")) else {
            panic!("the crate refuses {name}");
        };
        assert_eq!(records[1][1], number as u32, "the number of {name}");
    }
}
