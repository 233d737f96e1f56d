//! Writes the crate's answers to a list of letters, with the model's slices and places, for a
//! program that replays them on our cutter. Our library is not linked.

mod list;

use common::cut::{NAMES, NOT_ASCII};
use common::letters::{braced, repeated, MARKS, NUMBERS, SPACES, TELLING};
use common::random::Random;
use common::{grammar, mutate, oracle};
use list::{answer, List, LARGEST_ROOM, LONGEST_LETTER};
use model::{Refusal, TOKEN_WORDS};
use std::process::ExitCode;

const USAGE: &str = "mode: vectors FILE [--seed N] [--count N]";

/// One letter or a few for each rule, name, number and byte.
fn add_listed(list: &mut List) {
    for letter in TELLING {
        list.add_in_rooms(letter);
    }
    for (i, one) in MARKS.iter().enumerate() {
        list.add(&[*one]);
        for two in MARKS {
            list.add(&[*one, *two]);
            list.add(&braced(&[*one, *two]));
            list.add(&braced(&[b'\\', *one, *two, MARKS[(i * 5 + 3) % MARKS.len()]]));
        }
    }
    for byte in 0..128 {
        for template in ["{@}", "{\\@ a}", "{\\b@a}", "{\\b @}", "@{}", "{\\'@4}", "{\\'4@a}"] {
            let put = template.replace('@', &char::from(byte).to_string());
            list.add(put.as_bytes());
        }
    }
    for number in NUMBERS {
        list.add(format!("{{\\fs{number}}}").as_bytes());
        list.add(format!("{{\\zz{number}; a}}").as_bytes());
    }
    for name in NAMES {
        list.add(format!("{{\\{name}}}").as_bytes());
        list.add(format!("{{\\{name}-12 }}").as_bytes());
        list.add(format!("{{\\{name}x\\{}}}", &name[..name.len() - 1]).as_bytes());
    }
}

/// As many tokens as the largest room holds, one less and more, and the longest letters.
fn add_large(list: &mut List) {
    const HELD: usize = LARGEST_ROOM / TOKEN_WORDS;
    for size in [HELD - 1, HELD, HELD + 1, LONGEST_LETTER] {
        let cut = answer(&repeated(b"{", size));
        list.put(&repeated(b"{", size), &cut, LARGEST_ROOM);
        list.put(&repeated(b"{", size), &cut, LARGEST_ROOM - 1);
    }
    for unit in [b"a".as_slice(), b"\\\\", b"\\zz ", b"\\\n \n", b"\\b1234;", b"\\b0000000000"] {
        list.add(&repeated(unit, LONGEST_LETTER));
    }
}

/// Refusal 2 is a limit of ours; it comes before what the crate would refuse.
fn add_above_127(list: &mut List) {
    const LETTERS: [&[u8]; 8] = [
        b"\x80",
        b"{\xff}",
        b"{\xc3\xa9}",
        b"{\\'\xe9}",
        b"{\\b-}\x80",
        b"{\xfe",
        b" \xa0{}",
        b"{\\\xe2\x80\x94}",
    ];
    for letter in LETTERS {
        for words in [0, TOKEN_WORDS + 1, 5 * TOKEN_WORDS] {
            list.put(letter, &Err(Refusal::nowhere(NOT_ASCII)), words);
        }
    }
}

/// Letters at random until the list has `count` answers or the file is full.
fn add_drawn(list: &mut List, seed: u64, count: usize) {
    let mut random = Random::new(seed ^ 0x7EC7_0125);
    let mut left = 20 * count;
    while list.len() < count && left > 0 {
        left -= 1;
        let letter = drawn(&mut random);
        if random.once_in(10) {
            list.add_in_rooms(&letter);
        } else {
            list.add(&letter);
        }
    }
}

/// Mostly a few bytes, so that a few thousand fit the file.
fn drawn(random: &mut Random) -> Vec<u8> {
    match random.below(100) {
        0..40 => braced(&string(random, MARKS)),
        40..55 => braced(&string(random, SPACES)),
        55..75 => grammar::letter(random, 15),
        75..94 => {
            let letter = grammar::letter(random, 15);
            mutate::mutated(random, &letter, LONGEST_LETTER)
        }
        94..98 => grammar::letter(random, 100),
        98 => grammar::letter(random, 330),
        _ => {
            let letter = grammar::letter(random, 330);
            mutate::mutated(random, &letter, LONGEST_LETTER)
        }
    }
}

fn string(random: &mut Random, alphabet: &[u8]) -> Vec<u8> {
    (0..random.between(3, 9)).map(|_| random.byte(alphabet)).collect()
}

fn main() -> ExitCode {
    let words: Vec<String> = std::env::args().skip(1).collect();
    match write(&words) {
        Ok(()) => ExitCode::SUCCESS,
        Err(message) => {
            eprintln!("{message}\n{USAGE}");
            ExitCode::from(2)
        }
    }
}

fn write(words: &[String]) -> Result<(), String> {
    let (path, words) = words.split_first().ok_or("no file")?;
    let [seed, count] = common::options(words, [("--seed", 1), ("--count", 4_000)])?;
    println!("seed {seed}, count {count}");
    oracle::check_names();
    let mut list = List::new(seed);
    add_listed(&mut list);
    add_large(&mut list);
    add_above_127(&mut list);
    add_drawn(&mut list, seed, count as usize);
    std::fs::write(path, list.file()).map_err(|error| format!("{path}: {error}"))?;
    list.print_summary();
    Ok(())
}
