//! The comparison of stored forms, part by part.

use crate::call::Records;
use crate::judge::Judge;
use crate::{damage, drawn, lists, ours};
use codec::{Refusal, BLOCK_WORDS, LENGTH, MOST_TEXT, PLACE, STORED_WORDS};
use common::program::Plan;
use common::random::Random;
use std::time::Instant;

/// Differences that are printed in full for each part.
const PRINTED: u32 = 3;

/// True if there is no difference.
pub fn run(plan: &Plan) -> bool {
    let Plan { seed, count, depth } = *plan;
    println!("seed {seed}, count {count}, depth {depth}; {} is judged", ours::NAME);
    let mut judge = Judge::new(!seed);
    listed(&mut judge, depth);
    at_random(&mut judge, seed, count);
    beyond_most_text(&mut judge);
    judge.seen.print();
    println!("calls: {}", judge.calls);
    println!("{} lists and records compared, {} differences", judge.tried, judge.differences);
    judge.differences == 0
}

fn listed(judge: &mut Judge, depth: usize) {
    part(judge, "known answers", |judge| {
        lists::known().iter().for_each(|(list, refusal)| judge.known(list, *refusal));
        for (asked, refusal) in &lists::known_in_rooms() {
            judge.known_in_rooms(asked, *refusal);
        }
        lists::telling().iter().for_each(|records| judge.good_records(records));
        for (records, refusal) in &lists::indented() {
            judge.refused_records(records, *refusal);
        }
    });
    part(judge, "rooms of every size", |judge| {
        for records in lists::telling() {
            judge.list_in_every_size(&records.list());
            judge.records_in_every_size(&records);
        }
        for (records, _) in lists::indented() {
            judge.records_in_every_size(&records);
        }
    });
    part(judge, "all short lists and ends", |judge| {
        lists::every_end(depth, &mut |list| judge.list(list));
    });
    part(judge, "all short texts", |judge| lists::texts(depth, &mut |list| judge.list(list)));
    part(judge, "numbers well and badly put", |judge| {
        lists::numbers(&mut |list| judge.list(list));
    });
    part(judge, "each byte in each place", |judge| {
        lists::every_byte_everywhere(&mut |list| judge.list(list));
    });
    part(judge, "each word of each record", every_word);
}

/// Each word of the telling records made each of `WORDS`, and the words ended before it.
fn every_word(judge: &mut Judge) {
    let indented = lists::indented().into_iter().map(|(records, _)| records);
    for good in lists::telling().into_iter().chain(indented) {
        for place in 0..good.blocks.len() {
            let mut records = good.clone();
            for word in lists::WORDS {
                records.blocks[place] = word;
                judge.records(&records);
            }
            records.blocks.truncate(place);
            judge.records(&records);
        }
        for end in 0..good.text.len() {
            judge.records(&Records { text: good.text[..end].to_vec(), ..good.clone() });
        }
    }
}

fn at_random(judge: &mut Judge, seed: u64, count: usize) {
    let random = |salt: u64| Random::new(seed ^ salt);
    part(judge, "records at random", |judge| {
        let mut random = random(0x04EC_04D5);
        (0..count / 2).for_each(|_| judge.good_records(&drawn::records(&mut random)));
    });
    part(judge, "records with indents", |judge| {
        let mut random = random(0x1_4DE47);
        for _ in 0..count / 4 {
            let records = drawn::indented(&mut random);
            judge.refused_records(&records, Refusal::IndentNotZero.number());
        }
    });
    part(judge, "lists at random", |judge| {
        let mut random = random(0x11_5753);
        (0..count / 2).for_each(|_| judge.list(&drawn::records(&mut random).list()));
    });
    part(judge, "lists, damaged", |judge| {
        let mut random = random(0xDA3A_6ED0);
        let mut whole = Vec::new();
        for turn in 0..count {
            if turn % 8 == 0 {
                whole = drawn::records(&mut random).list();
            }
            judge.list(&damage::list(&mut random, &whole));
        }
    });
    part(judge, "records, damaged", |judge| {
        let mut random = random(0xDA3A_6ED1);
        let mut whole = Records::default();
        for turn in 0..count {
            if turn % 8 == 0 {
                let drawn = if turn % 32 == 0 { drawn::indented } else { drawn::records };
                whole = drawn(&mut random);
            }
            judge.records(&damage::records(&mut random, &whole));
        }
    });
}

/// Refusal 20 of a check; places and lengths that are negative as signed words. Lists and texts are
/// made of zeros, which are text too and take no memory; they are too large for the bridge.
fn beyond_most_text(judge: &mut Judge) {
    let name = "text of 2,147,483,647 bytes";
    if cfg!(bridge) {
        println!("{name:27} not tried under an emulator");
        return;
    }
    part(judge, name, |judge| {
        for (last, behind) in [(1, 0), (2, 0), (1, 1), (2, 1)] {
            judge.huge(&list_of_zeros(last, behind));
        }
        let text = vec![0; MOST_TEXT + 2];
        let most = MOST_TEXT as u32;
        let cases: [(&[u32], u64); 4] =
            [(&[most], 25), (&[most + 1], 24), (&[most, 1], 25), (&[most, 1, 1], 24)];
        for (lengths, refusal) in cases {
            let blocks = records_of(lengths);
            let length = lengths.iter().map(|length| *length as usize).sum();
            judge.huge_text(&blocks, &text[..length], refusal);
        }
    });
}

/// A list of two blocks, the first one byte short of the most text; some bytes behind them.
fn list_of_zeros(last: u32, behind: usize) -> Vec<u8> {
    let first = MOST_TEXT as u32 - 1;
    let mut style = vec![0; STORED_WORDS];
    let head = [vec![2], style.clone(), lists::number(u64::from(first))].concat();
    style[0] = 1;
    let next = [style, lists::number(u64::from(last))].concat();
    let place = head.len() + first as usize;
    let mut list = vec![0; place + next.len() + last as usize + behind];
    list[..head.len()].copy_from_slice(&head);
    list[place..][..next.len()].copy_from_slice(&next);
    list
}

/// Records of blocks with texts of these lengths, each of another colour.
fn records_of(lengths: &[u32]) -> Vec<u32> {
    let mut place = 0;
    let mut blocks = Vec::new();
    for (colour, length) in (0..).zip(lengths) {
        let mut record = [0; BLOCK_WORDS];
        [record[0], record[PLACE], record[LENGTH]] = [colour, place, *length];
        blocks.extend(record);
        place += length;
    }
    blocks
}

fn part(judge: &mut Judge, name: &str, work: impl FnOnce(&mut Judge)) {
    let (tried, differences) = (judge.tried, judge.differences);
    let (calls, successes) = (judge.calls, judge.seen.successes());
    judge.to_print = PRINTED;
    let start = Instant::now();
    work(judge);
    judge.finish();
    println!(
        "{name:27} {:9} tried {:9} calls {:9} successes {:6} differences {:6.1} s",
        judge.tried - tried,
        judge.calls - calls,
        judge.seen.successes() - successes,
        judge.differences - differences,
        start.elapsed().as_secs_f64()
    );
}
