//! What has been covered, so that a run that tested little shows.

use crate::call::{Asked, Told, OUTPUT_ROOM};
use crate::rule;

const REFUSALS: usize = OUTPUT_ROOM as usize + 1;

/// What became of a text.
#[derive(Debug, Clone, Copy)]
enum Became {
    Empty,
    Whole,
    AtSpace,
    AtLimit,
}

#[derive(Default)]
pub struct Seen {
    /// Letters whose plain text or refusal the crate gave.
    pub with_crate: u64,
    /// Calls by refusal number: texts, letters in each reading, and letters with a place.
    calls: [[u64; 5]; REFUSALS],
    /// Snippets that the rule gave.
    became: [u64; 4],
    /// The longest text without superfluous white space, in characters.
    longest: usize,
}

impl Seen {
    pub fn text(&mut self, all: &[u8]) {
        self.longest = self.longest.max(rule::starts(all).count());
    }

    /// The snippet of a text whose white space is squeezed.
    pub fn snippet(&mut self, all: &[u8], snippet: &[u8], most: usize) {
        let became = if all.is_empty() {
            Became::Empty
        } else if all.len() == snippet.len() {
            Became::Whole
        } else if rule::starts(snippet).count() == most {
            Became::AtLimit
        } else {
            Became::AtSpace
        };
        self.became[became as usize] += 1;
    }

    pub fn call(&mut self, asked: &Asked, expected: &Told) {
        let [refusal, place] = expected.as_ref().err().copied().unwrap_or_default();
        let column = match asked {
            Asked::Snip(_) | Asked::SnipTo(..) => 0,
            Asked::Snippet(_, 1) => 2,
            Asked::Snippet(_, 2) => 3,
            Asked::Snippet(..) => 1,
        };
        let row = &mut self.calls[refusal as usize];
        row[column] += 1;
        row[4] += u64::from(place > 0);
    }

    pub fn successes(&self) -> u64 {
        self.calls[0].iter().sum()
    }

    pub fn print(&self) {
        println!("\nCalls by refusal number: of texts; of letters plainly, by paragraphs and in");
        println!("standard reading; those with a place that is not 0. 21 to 24 are no snippet's.");
        let columns = ["text", "plain", "paragraphs", "standard", "placed"];
        println!(" no.{}", columns.map(|name| format!("{name:>13}")).concat());
        for number in (0..=20).chain([OUTPUT_ROOM as usize]) {
            let calls = self.calls[number];
            println!("{number:4}{}", calls.map(|count| format!("{count:>13}")).concat());
        }
        let [empty, whole, space, limit] = self.became;
        println!(
            "snippets: {empty} empty, {whole} of a whole text, {space} cut before a space, {limit} \
             cut at the limit"
        );
        println!("the crate told the plain text or refusal of {} letters", self.with_crate);
        println!("longest text: {} characters, white space squeezed", self.longest);
    }
}
