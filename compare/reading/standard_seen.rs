//! What the letters of a comparison of standard reading have covered, so that a run that tested
//! little shows.

use common::cut::WORD;
use model::{Answer, Cut, Met, Refusal, SYMBOL};

const REFUSALS: usize = 21;

#[derive(Default)]
pub struct Seen {
    /// Letters by refusal number, and those of them whose place is not 0.
    letters: [u64; REFUSALS],
    placed: [u64; REFUSALS],
    /// Calls in rooms that may not hold the answer.
    small: [u64; REFUSALS],
    /// Letters, read or refused, in which something was passed over, a text in part, in which a
    /// brace ended it, and in which units paired.
    met: [u64; 4],
    kinds: [u64; SYMBOL as usize + 1],
    words: Vec<u64>,
    /// By the byte behind the backslash.
    symbols: Vec<u64>,
    most: [usize; 5],
    agreed: u64,
    paired: u64,
}

impl Seen {
    pub fn letter(&mut self, cut: &Cut, answer: &Answer, met: &Met) {
        let Refusal { number, place } = answer.refusal;
        self.letters[number as usize] += 1;
        self.placed[number as usize] += u64::from(place > 0);
        let met = [met.skipped, met.in_part, met.ended, met.paired];
        for (count, met) in self.met.iter_mut().zip(met) {
            *count += u64::from(met);
        }
        for (most, count) in self.most.iter_mut().zip(answer.counts()) {
            *most = count.max(*most);
        }
        self.words.resize(50, 0);
        self.symbols.resize(128, 0);
        for token in cut.iter().flatten() {
            self.kinds[token[0] as usize] += 1;
            match token[0] {
                WORD => self.words[token[1] as usize] += 1,
                SYMBOL => self.symbols[token[1] as usize] += 1,
                _ => {}
            }
        }
    }

    pub fn small_rooms(&mut self, answer: &Answer) {
        self.small[answer.refusal.number as usize] += 1;
    }

    pub fn agreed(&mut self) {
        self.agreed += 1;
    }

    pub fn paired(&mut self) {
        self.paired += 1;
    }

    pub fn successes(&self) -> u64 {
        self.letters[0]
    }

    pub fn print(&self) {
        println!("\nBy refusal number: letters, those whose place is not 0, calls in small rooms.");
        println!("A number with zeros only was not covered.");
        println!(" no.      letters       placed        small");
        for number in 0..REFUSALS {
            let counts = [self.letters, self.placed, self.small].map(|counts| counts[number]);
            println!("{number:4} {:12} {:12} {:12}", counts[0], counts[1], counts[2]);
        }
        let [tokens, fonts, colours, blocks, text] = self.most;
        println!(
            "at most in a letter: {tokens} tokens, {fonts} fonts, {colours} colours, \
             {blocks} blocks, {text} text bytes"
        );
        let [text, open, close, breaks, mark, word, symbol] = self.kinds;
        println!(
            "tokens: text {text}, open {open}, close {close}, line break {breaks}, \
             ignorable {mark}, word {word}, symbol {symbol}"
        );
        let met = |counts: &[u64]| counts.iter().filter(|count| **count > 0).count();
        let (words, symbols) = (met(&self.words), met(&self.symbols));
        println!("met: {words} of 50 words, {symbols} of 70 symbols");
        let [skipped, in_part, ended, paired] = self.met;
        println!(
            "letters with something passed over {skipped}, a text in part {in_part}, a brace that \
             ended it {ended}, units in a pair {paired}"
        );
        println!(
            "letters that paragraph reading answers alike: {}; pairs that differ in what is \
             hidden: {}",
            self.agreed, self.paired
        );
    }
}
