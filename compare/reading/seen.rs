//! What the letters have covered, so that a run that tested little shows.

use common::cut::{LINE_BREAK, WORD};
use model::{Answer, Block, Kind, Refusal, INDENTS};

const REFUSALS: usize = 21;

pub struct Seen {
    /// Letters whose answer both builds of the crate gave, by refusal number.
    with_crate: [u64; REFUSALS],
    /// Letters outside the equality with the crate, which was not compared.
    by_model: [u64; REFUSALS],
    /// Letters of both sorts whose refusal has a place that is not 0.
    placed: [u64; REFUSALS],
    /// Calls in rooms that may not hold the answer, plain and by paragraphs.
    small: [[u64; REFUSALS]; 2],
    /// Letters that have an indent by paragraphs, and two blocks that indents alone part.
    indented: [u64; 2],
    /// Letters with more line breaks by paragraphs, and with another refusal or place there.
    returns: [u64; 2],
    words: [u64; 50],
    most: [usize; 5],
}

impl Seen {
    pub fn new() -> Self {
        Seen {
            with_crate: [0; REFUSALS],
            by_model: [0; REFUSALS],
            placed: [0; REFUSALS],
            small: [[0; REFUSALS]; 2],
            indented: [0; 2],
            returns: [0; 2],
            words: [0; 50],
            most: [0; 5],
        }
    }

    /// The answers of both readings, plain first, which is counted.
    pub fn letter(&mut self, [answer, paragraphs]: &[Answer; 2], with_crate: bool) {
        self.indents(paragraphs);
        let breaks =
            |answer: &Answer| answer.tokens.iter().filter(|token| token[0] == LINE_BREAK).count();
        if answer.refusal != paragraphs.refusal {
            self.returns[1] += 1;
        } else if breaks(paragraphs) > breaks(answer) {
            self.returns[0] += 1;
        }
        let counts = if with_crate { &mut self.with_crate } else { &mut self.by_model };
        let Refusal { number, place } = answer.refusal;
        counts[number as usize] += 1;
        self.placed[number as usize] += u64::from(place > 0);
        for (most, count) in self.most.iter_mut().zip(answer.counts()) {
            *most = count.max(*most);
        }
        for token in answer.tokens.iter().filter(|token| token[0] == WORD) {
            self.words[token[1] as usize] += 1;
        }
    }

    fn indents(&mut self, answer: &Answer) {
        let indented = |block: &Block| block[INDENTS].iter().any(|word| *word != 0);
        // No two neighbours have one style.
        let same_rest = |two: &[Block]| two[0][..INDENTS.start] == two[1][..INDENTS.start];
        self.indented[0] += u64::from(answer.blocks.iter().any(indented));
        self.indented[1] += u64::from(answer.blocks.windows(2).any(same_rest));
    }

    pub fn small_rooms(&mut self, kind: Kind, answer: &Answer) {
        self.small[kind as usize][answer.refusal.number as usize] += 1;
    }

    pub fn successes(&self) -> u64 {
        self.with_crate[0] + self.by_model[0]
    }

    /// The heading says what the columns count; the second is named `alone`.
    pub fn print(&self, heading: &str, alone: &str) {
        println!("\nBy refusal number: {heading}");
        let columns = ["crate", alone, "placed", "small", "paragraphs"];
        let columns = columns.map(|name| format!("{name:>13}"));
        println!(" no.{}", columns.concat());
        for number in 0..REFUSALS {
            let small = self.small.map(|counts| counts[number]);
            println!(
                "{number:4} {:12} {:12} {:12} {:12} {:12}",
                self.with_crate[number],
                self.by_model[number],
                self.placed[number],
                small[0],
                small[1]
            );
        }
        let [tokens, fonts, colours, blocks, text] = self.most;
        println!(
            "at most in a letter: {tokens} tokens, {fonts} fonts, {colours} colours, \
             {blocks} blocks, {text} text bytes"
        );
        let [indented, parted] = self.indented;
        println!(
            "by paragraphs: {indented} letters with an indent, {parted} with blocks that indents \
             alone part"
        );
        let [more, refused] = self.returns;
        println!(
            "by paragraphs: {more} letters with line breaks more, {refused} with another refusal \
             or place than in plain reading"
        );
        let met = self.words.iter().filter(|count| **count > 0).count();
        println!("words: {met} of {} met in letters that were read", self.words.len());
    }
}
