//! The premise of a pair, told on the crate's tokens: both letters are cut, and are the same but
//! for what stands in hidden groups that the header walk reaches and that a brace of their own
//! closes. This walk shares no code with the model's. By paragraphs the tokens are others, and so
//! may the hidden groups be. For standard reading the crate has no tokens, and the model's are taken.

use common::cut::{Cut, Told, CLOSE, IGNORABLE, LINE_BREAK, NAMES, OPEN, WORD};
use common::oracle::{self, Reading};
use model::Kind;
use std::ops::Range;

/// A token without its places, and the bytes that these stand for; or a hidden group.
#[derive(Debug, PartialEq, Eq)]
pub enum Step<'a> {
    Token([u32; 4], &'a [u8]),
    Hidden,
}

#[derive(Clone, Copy, PartialEq, Eq)]
enum Group {
    Hidden,
    Table,
}

/// The crate's tokens, or the model's; none if the letter is refused.
pub fn tokens(letter: &[u8], kind: Kind) -> Option<Vec<Told>> {
    if kind == Kind::Standard {
        let tokens = model::cut(letter, kind).ok()?;
        return Some(tokens.iter().filter_map(|token| token.first_chunk().copied()).collect());
    }
    let text = std::str::from_utf8(letter).ok()?;
    match oracle::wrapping_reading(text, kind == Kind::Paragraphs) {
        Reading::Answered(Cut::Tokens(tokens)) => Some(tokens),
        _ => None,
    }
}

/// What is left of a letter if nobody may look into its hidden groups; none if it is not cut.
pub fn veil(letter: &[u8], kind: Kind) -> Option<Vec<Step<'_>>> {
    let tokens = tokens(letter, kind)?;
    let mut steps = Vec::new();
    let mut at = 0;
    for group in hidden_groups(&tokens) {
        steps.extend(tokens[at..group.start].iter().map(|token| step(letter, token)));
        steps.push(Step::Hidden);
        at = group.end;
    }
    steps.extend(tokens[at..].iter().map(|token| step(letter, token)));
    Some(steps)
}

fn step<'a>(letter: &'a [u8], &[kind, word, present, number, place, length]: &Told) -> Step<'a> {
    Step::Token([kind, word, present, number], &letter[place as usize..][..length as usize])
}

/// Whether a group, alone, is hidden and closed by its last byte, in each of the readings.
pub fn is_hidden(group: &[u8], kinds: &[Kind]) -> bool {
    kinds.iter().all(|kind| {
        tokens(group, *kind).is_some_and(|tokens| hidden_groups(&tokens) == [0..tokens.len()])
    })
}

/// The hidden groups that the walk reaches, brace to brace, without one that is never closed.
pub fn hidden_groups(tokens: &[Told]) -> Vec<Range<usize>> {
    let mut groups = Vec::new();
    let mut at = 0;
    while at + 1 < tokens.len() {
        let Some(group) = group(&tokens[at..]) else {
            at += 1;
            continue;
        };
        let Some(length) = length(&tokens[at..]) else {
            break;
        };
        if group == Group::Hidden {
            groups.push(at..at + length);
        }
        at += length;
    }
    groups
}

fn group(tokens: &[Told]) -> Option<Group> {
    if tokens[0][0] != OPEN {
        return None;
    }
    match tokens[1..].iter().find(|token| token[0] != LINE_BREAK)? {
        [IGNORABLE, ..] => Some(Group::Hidden),
        [WORD, word, 0, ..] => match NAMES.get(*word as usize)? {
            &"stylesheet" => Some(Group::Hidden),
            &"fonttbl" | &"colortbl" => Some(Group::Table),
            _ => None,
        },
        _ => None,
    }
}

/// Tokens up to the closing brace that matches the first one's opening brace.
fn length(tokens: &[Told]) -> Option<usize> {
    let mut open = 0;
    let closed = tokens.iter().position(|token| {
        match token[0] {
            OPEN => open += 1,
            CLOSE => open -= 1,
            _ => {}
        }
        open == 0
    });
    closed.map(|last| last + 1)
}
