//! What has been covered, so that a run that tested little shows.

/// The answers that there are: success, and the refusals of the stored form.
const ANSWERS: [u64; 9] = [0, 19, 20, 21, 22, 23, 24, 25, 26];

/// What a call was, small for rooms that may not hold the answer.
#[derive(Debug, Clone, Copy)]
pub enum Column {
    Check,
    Read,
    ReadSmall,
    Write,
    WriteSmall,
}

#[derive(Default)]
pub struct Seen {
    /// Calls by answer and column.
    calls: [[u64; 5]; ANSWERS.len()],
    /// Bytes of the longest list that was accepted, and the most blocks and bytes of text in one.
    most: [usize; 3],
}

impl Seen {
    pub fn call(&mut self, column: Column, refusal: u64) {
        let row = ANSWERS.iter().position(|answer| *answer == refusal);
        self.calls[row.expect("an answer of the stored form")][column as usize] += 1;
    }

    pub fn list(&mut self, bytes: usize, blocks: usize, text: usize) {
        for (most, count) in self.most.iter_mut().zip([bytes, blocks, text]) {
            *most = count.max(*most);
        }
    }

    pub fn successes(&self) -> u64 {
        self.calls[0].iter().sum()
    }

    pub fn print(&self) {
        println!("\nCalls by refusal number: checks, readings in rooms that hold all and in small");
        println!("ones, writings likewise. A number with zeros only was not covered.");
        let columns = ["check", "read", "small", "write", "small"];
        println!(" no.{}", columns.map(|name| format!("{name:>13}")).concat());
        for (answer, calls) in ANSWERS.iter().zip(&self.calls) {
            println!("{answer:4}{}", calls.map(|count| format!("{count:>13}")).concat());
        }
        let [bytes, blocks, text] = self.most;
        println!("at most in a list: {bytes} bytes, {blocks} blocks, {text} text bytes");
    }
}
