//! One pair of letters on each side: two letters that differ only inside hidden groups get the same
//! answer, whatever it is, from each build of the crate and from ours. No side judges another; the
//! model says only which letters the crate has an answer for, and which rooms are small.

use crate::lent::{Call, Lent};
use crate::outside::Outside;
use crate::pairs::Pair;
use crate::parts::{Differences, Judging};
use crate::queue::{BATCH, HEAD, JUNK};
use crate::seen::Seen;
use crate::veil::{self, veil};
use crate::{ours, report, small};
use common::oracle::{self, Reading};
use common::random::Random;
use common::whole::{Document, Whole};
use model::{Answer, Kind, Rooms, KINDS, TOKENS, WIDTHS};

/// How often each pair is read in small rooms.
const TIMES: usize = 2;

const HEADING: &str = "\
pairs on which both builds of the crate were asked as well as ours,
pairs outside 01's domain, asked of ours alone; those of both whose first letter
is refused at a place that is not 0; pairs of calls in small rooms, the same for
paragraph reading. The numbers are those of the model.";

type Letters = [Vec<u8>; 2];

pub struct Judge {
    /// Comparisons of the crate's answers, and of ours, that showed a difference.
    pub apart: [u64; 2],
    pairs: u64,
    calls: u64,
    holes: usize,
    most_holes: usize,
    /// Bytes of the longest hidden group and of the longest letter.
    largest: usize,
    longest: usize,
    differences: Differences,
    seen: Seen,
    random: Random,
    lent: Lent,
    /// Calls that wait to be sent together, two for each comparison, and their bytes.
    waiting: Vec<Call>,
    bytes: usize,
}

/// Whether both letters are cut and differ only inside hidden groups.
pub fn premise(letters: &Letters, kind: Kind) -> bool {
    let [one, two] = letters.each_ref().map(|letter| veil(letter, kind));
    one.is_some() && one == two
}

/// Whether two answers are the same to one who sees neither tokens nor the places of names.
pub fn alike(one: &Whole, two: &Whole) -> bool {
    fn shown(document: &Document) -> impl PartialEq + '_ {
        (&document.fonts, &document.colours, &document.blocks, &document.text)
    }
    match (one, two) {
        (Whole::Read(one), Whole::Read(two)) => shown(one) == shown(two),
        _ => one == two,
    }
}

impl Judging for Judge {
    const UNIT: &str = "pairs";

    fn compared(&self) -> [u64; 2] {
        [self.pairs, self.seen.successes()]
    }

    fn differences(&mut self) -> &mut Differences {
        &mut self.differences
    }

    fn finish(&mut self) {
        ours::send(&self.waiting);
        self.bytes = 0;
        for calls in std::mem::take(&mut self.waiting).chunks_exact(2) {
            self.made([&calls[0], &calls[1]]);
        }
    }
}

impl Judge {
    pub fn new(seed: u64) -> Self {
        Judge {
            apart: [0; 2],
            pairs: 0,
            calls: 0,
            holes: 0,
            most_holes: 0,
            largest: 0,
            longest: 0,
            differences: Differences::default(),
            seen: Seen::new(),
            random: Random::new(seed),
            lent: Lent::default(),
            waiting: Vec::new(),
            bytes: 0,
        }
    }

    /// Compares a pair; one that was wrongly drawn counts as a difference.
    pub fn pair(&mut self, pair: &Pair) {
        self.holes += pair.holes;
        self.most_holes = self.most_holes.max(pair.holes);
        self.largest = self.largest.max(pair.largest);
        self.compare(&pair.letters);
        for kind in KINDS.into_iter().filter(|kind| !premise(&pair.letters, *kind)) {
            let nothing = ["", ""].map(String::from);
            let side = format!("outside the premise, {kind:?}");
            self.differences.found(self.pairs, || difference(&side, &pair.letters, &nothing));
        }
    }

    /// Compares any two letters. What our side says to them may be told only with `finish`.
    pub fn compare(&mut self, letters: &Letters) {
        self.pairs += 1;
        let bytes = letters.iter().map(Vec::len).max().unwrap_or(0);
        self.longest = self.longest.max(bytes);
        let ample = small::ample(bytes);
        let inside = KINDS.map(|kind| {
            letters.iter().all(|letter| {
                let (answer, met) = model::read(letter, kind, &ample);
                Outside::of(&answer, &met).is_none()
            })
        });
        let answers = KINDS.map(|kind| model::read(&letters[0], kind, &ample).0);
        self.seen.letter(&answers, inside[Kind::Plain as usize]);
        for kind in KINDS {
            if inside[kind as usize] {
                self.with_crate(letters, kind);
            }
            self.with_ours(letters, kind, &answers[kind as usize], bytes);
        }
    }

    fn with_crate(&mut self, letters: &Letters, kind: Kind) {
        let [one, two] = letters.each_ref().map(|letter| {
            let text = std::str::from_utf8(letter).expect("a letter for the crate is ASCII");
            oracle::whole_readings(text, kind == Kind::Paragraphs)
        });
        for (build, says) in ["off", "on"].iter().zip(one.iter().zip(&two)) {
            let same = match says {
                (Reading::Answered(one), Reading::Answered(two)) => alike(one, two),
                _ => false,
            };
            if !same {
                self.apart[0] += 1;
                let side = format!("crate, overflow checks {build}, {kind:?}");
                let told = [says.0, says.1].map(report::reading);
                self.differences.found(self.pairs, || difference(&side, letters, &told));
            }
        }
    }

    /// Calls in rooms that hold everything, and in small ones.
    fn with_ours(&mut self, letters: &Letters, kind: Kind, answer: &Answer, bytes: usize) {
        let ample = small::ample(bytes);
        let tokens = letters
            .each_ref()
            .map(|letter| veil::tokens(letter, kind).map_or(letter.len(), |tokens| tokens.len()));
        let large = small::large(&mut self.random, answer, bytes);
        self.call(letters, kind, &large, tokens);
        for _ in 0..TIMES {
            let mut rooms = small::tight(&mut self.random, answer, bytes);
            rooms[TOKENS] = ample[TOKENS];
            let (answer, _) = model::read(&letters[0], kind, &rooms);
            self.seen.small_rooms(kind, &answer);
            self.call(letters, kind, &rooms, tokens);
        }
    }

    /// Lends rooms of such sizes for each letter, but for tokens what it needs, or a little more.
    fn call(&mut self, letters: &Letters, kind: Kind, rooms: &Rooms, tokens: [usize; 2]) {
        let bytes = letters.iter().map(|letter| letter.len() + HEAD).sum::<usize>();
        if self.bytes + bytes > BATCH {
            self.finish();
        }
        self.bytes += bytes;
        for (letter, tokens) in letters.iter().zip(tokens) {
            self.calls += 1;
            let mut rooms = *rooms;
            rooms[TOKENS] = tokens * WIDTHS[TOKENS] + self.random.below(2 * WIDTHS[TOKENS]);
            let junk = self.random.draw() as u32 | JUNK;
            let letter = letter.clone();
            self.waiting.push(Call { number: self.pairs, letter, kind, rooms, junk });
        }
    }

    fn made(&mut self, calls: [&Call; 2]) {
        let says = calls.map(|call| self.lent.told(call));
        if matches!(&says, [Ok(one), Ok(two)] if alike(one, two)) {
            return;
        }
        self.apart[1] += 1;
        let Call { number, kind, rooms, .. } = calls[0];
        let side = format!("{}, {kind:?}, rooms of {rooms:?} elements", ours::NAME);
        let told = says.map(|says| match says {
            Ok(whole) => report::reading(&Reading::Answered(whole)),
            Err(numbers) => format!("an answer that cannot be: {numbers:?}"),
        });
        let letters = calls.map(|call| call.letter.clone());
        self.differences.found(*number, || difference(&side, &letters, &told));
    }

    pub fn print(&self) {
        self.seen.print(HEADING, "ours alone");
        println!("holes: {}, at most {} in a letter", self.holes, self.most_holes);
        println!(
            "the largest hidden group has {} bytes, the longest letter {}",
            self.largest, self.longest
        );
        println!("calls: {}", self.calls);
        println!("{} pairs compared, {} differences", self.pairs, self.differences.count);
    }
}

/// The letters in full, since what differs may stand anywhere.
pub fn difference(side: &str, letters: &Letters, told: &[String; 2]) -> String {
    let [one, two] = letters.each_ref().map(|letter| letter.escape_ascii());
    format!("DIFFERENCE, {side}:\n  b\"{one}\"\n    {}\n  b\"{two}\"\n    {}", told[0], told[1])
}
