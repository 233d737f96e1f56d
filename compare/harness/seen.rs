//! What the letters have covered, so that a run that tested little shows.

use common::cut::{LINE_BREAK, NAMES, ROOM_SMALL, WORD};
use model::{Cut, Token};

/// Of plain cuttings, but for what is said of `returns`.
#[derive(Default)]
pub struct Seen {
    refusals: [u64; ROOM_SMALL as usize + 1],
    /// Those of them whose place is not 0.
    placed: [u64; ROOM_SMALL as usize + 1],
    kinds: [u64; WORD as usize + 1],
    words: Vec<u64>,
    longest: usize,
    /// Letters that are cut and have more line breaks by paragraphs, those of them with more texts,
    /// and the most line breaks more.
    returns: [u64; 3],
}

impl Seen {
    pub fn count(&mut self, [plain, paragraphs]: &[Cut; 2]) {
        if let (Ok(plain), Ok(paragraphs)) = (plain, paragraphs) {
            self.count_returns(plain, paragraphs);
        }
        match plain {
            Err(refusal) => {
                self.refusals[refusal.number as usize] += 1;
                self.placed[refusal.number as usize] += u64::from(refusal.place > 0);
            }
            Ok(records) => {
                self.refusals[0] += 1;
                self.words.resize(NAMES.len() + 1, 0);
                for record in records {
                    self.kinds[record[0] as usize] += 1;
                    if record[0] == WORD {
                        self.words[record[1] as usize] += 1;
                    }
                }
                self.longest = self.longest.max(records.len());
            }
        }
    }

    fn count_returns(&mut self, plain: &[Token], paragraphs: &[Token]) {
        let breaks =
            |tokens: &[Token]| tokens.iter().filter(|token| token[0] == LINE_BREAK).count();
        let more = breaks(paragraphs) - breaks(plain);
        let [letters, with_texts, most] = &mut self.returns;
        *letters += u64::from(more > 0);
        *with_texts += u64::from(paragraphs.len() > plain.len() + more);
        *most = (more as u64).max(*most);
    }

    pub fn count_small_room(&mut self) {
        self.refusals[ROOM_SMALL as usize] += 1;
    }

    pub fn successes(&self) -> u64 {
        self.refusals[0]
    }

    pub fn print(&self) {
        print!("answers:");
        for (number, count) in self.refusals.iter().enumerate() {
            print!("  {number}: {count}");
        }
        println!("  (7: calls, the others: letters)");
        println!("places:  not 0 in {:?} of the letters with 3 to 6", &self.placed[3..=6]);
        let [text, open, close, breaks, ignorable, word] = self.kinds;
        println!(
            "tokens:  text {text}, open {open}, close {close}, line break {breaks}, \
             ignorable {ignorable}, word {word}; at most {} in a letter",
            self.longest
        );
        let met = self.words.iter().filter(|count| **count > 0).count();
        println!("words:   {met} of {} met", NAMES.len() + 1);
        let [letters, with_texts, most] = self.returns;
        println!(
            "by paragraphs: {letters} letters with line breaks more, at most {most}, {with_texts} \
             of them with texts more"
        );
    }
}
