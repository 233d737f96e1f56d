//! Letters made from others by small damage.

use crate::random::Random;

const FAVOURITES: &[u8] = b"{}\\'*;-+0189afuz \t\n\x0b\x0c\r";

/// The letter after a few changes, at most `longest` bytes of it.
pub fn mutated(random: &mut Random, letter: &[u8], longest: usize) -> Vec<u8> {
    let mut changed = letter.to_vec();
    for _ in 0..random.between(1, 4) {
        change(random, &mut changed);
    }
    changed.truncate(longest);
    changed
}

fn change(random: &mut Random, letter: &mut Vec<u8>) {
    let part = part(random, letter.len());
    match random.below(7) {
        0 => drop(letter.drain(part)),
        1 => letter.insert(part.start, any_byte(random)),
        2 => {
            if part.start < letter.len() {
                letter[part.start] = any_byte(random);
            }
        }
        3 => swap_parts(random, letter),
        4 => {
            let copy = letter[part.clone()].to_vec();
            let place = if random.once_in(2) { part.end } else { random.below(letter.len() + 1) };
            letter.splice(place..place, copy);
        }
        5 => letter.truncate(part.end),
        _ => letter.push(b'}'),
    }
}

/// Mostly a short part; the empty one at the end if there are no bytes.
fn part(random: &mut Random, length: usize) -> std::ops::Range<usize> {
    let start = random.below(length + 1);
    let most = if random.once_in(4) { length - start } else { (length - start).min(4) };
    start..start + random.below(most + 1)
}

fn any_byte(random: &mut Random) -> u8 {
    if random.once_in(4) {
        random.below(128) as u8
    } else {
        random.byte(FAVOURITES)
    }
}

/// Two neighbouring parts change places.
fn swap_parts(random: &mut Random, letter: &mut [u8]) {
    let start = random.below(letter.len() + 1);
    let end = start + random.below(letter.len() - start + 1);
    let turn = random.below(end - start + 1);
    letter[start..end].rotate_left(turn);
}
