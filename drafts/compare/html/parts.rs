//! The comparison of fragments, part by part.

use crate::call::Side;
use crate::judge::{Judge, Rooms};
use crate::{drawn, known, lists, ours};
use codec::{BLOCK_WORDS, LENGTH, MOST_TEXT, PLACE};
use common::program::Plan;
use common::random::Random;
use common::{fragments, letters, standard_letters};
use records::{damage, listed, Records};
use std::time::Instant;

/// Differences that are printed in full for each part.
const PRINTED: u32 = 3;
/// Characters of texts that are tried with all flags, and of those in rooms of every size.
const WITH_ALL_FLAGS: usize = 2;
const IN_EVERY_ROOM: usize = 3;

/// True if there is no difference, and if each fault was shown.
pub fn run(plan: &Plan) -> bool {
    let Plan { seed, count, depth } = *plan;
    println!("seed {seed}, count {count}, depth {depth}; {} is judged", ours::NAME);
    let are_shown = faults();
    let mut judge = Judge::new(Side::Ours, !seed);
    listed(&mut judge, seed, depth);
    at_random(&mut judge, seed, count);
    of_letters(&mut judge, seed, count, depth);
    judge.seen.print();
    println!("calls: {}", judge.calls);
    println!("{} lists compared, {} differences", judge.tried, judge.differences);
    judge.differences == 0 && are_shown
}

/// Whether rules with a fault each, in our library's place, are told from A8's by known answers.
fn faults() -> bool {
    let faults = rule::faults();
    let mut shown = 0;
    for fault in &faults {
        let mut judge = Judge::new(Side::Fault(fault.rule.clone()), 0);
        known::all().iter().for_each(|(records, told)| judge.known(records, told));
        judge.finish();
        shown += usize::from(judge.differences > 0);
        if judge.differences == 0 {
            println!("NOT SHOWN, a stand-in with a fault: {}", fault.name);
        }
    }
    println!("faults in a stand-in        {:9} tried {shown:9} shown", faults.len());
    shown == faults.len()
}

fn listed(judge: &mut Judge, seed: u64, depth: usize) {
    part(judge, "known answers", |judge| {
        known::all().iter().for_each(|(records, told)| judge.known(records, told));
    });
    part(judge, "all short texts", |judge| {
        let mut random = Random::new(seed ^ 0x7E_0075);
        for length in 0..=depth {
            lists::every_text(length, &mut |text| {
                let flags = random.below(lists::ALL_FLAGS as usize + 1) as u32;
                let records = lists::flagged(&[(flags, text)]);
                if length <= IN_EVERY_ROOM {
                    judge.list_in(records, Rooms::Every);
                } else {
                    judge.list(records);
                }
            });
        }
    });
    part(judge, "short texts with all flags", |judge| {
        for length in 0..=WITH_ALL_FLAGS.min(depth) {
            lists::every_text(length, &mut |text| {
                for flags in 0..=lists::ALL_FLAGS {
                    judge.list_in(lists::flagged(&[(flags, text)]), Rooms::Around);
                }
            });
        }
    });
    part(judge, "all short bytes", |judge| {
        listed::texts(depth.min(3), &mut |records| judge.list(records.clone()));
    });
    part(judge, "several blocks", |judge| lists::several(&mut |records| judge.list(records)));
    part(judge, "each word of each record", |judge| {
        listed::every_word(&mut |records| judge.list(records.clone()));
    });
    part(judge, "each byte, each rule broken", |judge| {
        lists::every_byte(&mut |records| judge.list(records));
    });
    part(judge, "long texts", |judge| {
        lists::long(&mut |records| judge.list_in(records, Rooms::Around));
    });
    part(judge, "many blocks", |judge| {
        lists::many(&mut |records| judge.list_in(records, Rooms::Around));
    });
    beyond_most_text(judge);
}

/// Places and lengths that are negative as signed words. Texts are made of zeros, which take no memory
/// and are refused by 27; they are too large for the bridge.
fn beyond_most_text(judge: &mut Judge) {
    let name = "text of 2,147,483,647 bytes";
    if cfg!(bridge) {
        println!("{name:27} not tried under an emulator");
        return;
    }
    part(judge, name, |judge| {
        let text = vec![0; MOST_TEXT + 1];
        for (length, refusal) in [(MOST_TEXT, 27), (MOST_TEXT + 1, 24)] {
            let mut record = [0; BLOCK_WORDS];
            [record[PLACE], record[LENGTH]] = [0, length as u32];
            judge.huge(&record, &text[..length], refusal);
        }
    });
}

fn at_random(judge: &mut Judge, seed: u64, count: usize) {
    let mut drawn = |name, salt, draw: fn(&mut Random) -> Records, count| {
        part(judge, name, |judge| {
            let mut random = Random::new(seed ^ salt);
            (0..count).for_each(|_| judge.list(draw(&mut random)));
        });
    };
    drawn("lists at random", 0x04EC_04D5, drawn::records, count);
    drawn("with control characters", 0xC0_4740, drawn::with_controls, count / 2);
    drawn("lists of stored forms", 0x11_5753, records::drawn::records, count / 4);
    part(judge, "lists, damaged", |judge| {
        let mut random = Random::new(seed ^ 0xDA3A_6ED0);
        let mut whole = Records::default();
        for turn in 0..count {
            if turn % 8 == 0 {
                let draw = if turn % 32 == 0 { drawn::with_controls } else { drawn::records };
                whole = draw(&mut random);
            }
            judge.list(damage::records(&mut random, &whole));
        }
    });
}

fn of_letters(judge: &mut Judge, seed: u64, count: usize, depth: usize) {
    part(judge, "telling letters", |judge| {
        let telling = fragments::SAMPLES.iter().chain(fragments::TELLING);
        for letter in telling.chain(standard_letters::TELLING) {
            judge.letter(letter.as_bytes());
        }
    });
    part(judge, "all strings of marks", |judge| {
        letters::every_string(letters::MARKS, depth.min(4), &mut |letter| judge.letter(letter));
    });
    let mut drawn = |name, salt, draw: fn(&mut Random) -> Vec<u8>, count| {
        part(judge, name, |judge| {
            let mut random = Random::new(seed ^ salt);
            (0..count).for_each(|_| judge.letter(&draw(&mut random)));
        });
    };
    drawn("letters of markup", 0x304D5, drawn::letter_of_markup, count / 2);
    drawn("letters by the grammars", 0x6_4A3A, drawn::letter, count / 4);
    drawn("letters, damaged", 0xDA3A_6ED1, drawn::damaged_letter, count / 4);
}

fn part(judge: &mut Judge, name: &str, work: impl FnOnce(&mut Judge)) {
    let (tried, differences) = (judge.tried, judge.differences);
    let (calls, successes) = (judge.calls, judge.seen.successes());
    judge.to_print = PRINTED;
    let start = Instant::now();
    work(judge);
    judge.finish();
    println!(
        "{name:27} {:9} tried {:9} calls {:9} successes {:6} differences {:6.1} s",
        judge.tried - tried,
        judge.calls - calls,
        judge.seen.successes() - successes,
        judge.differences - differences,
        start.elapsed().as_secs_f64()
    );
}
