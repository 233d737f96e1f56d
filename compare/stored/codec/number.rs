//! "Numbers go low seven bits first, the high bit set on all but the last, shortest."

use crate::Refusal;

const MORE: u8 = 0x80;
/// Groups of the largest number.
const MOST_GROUPS: usize = 5;

/// The number that a list starts with, and the bytes behind it.
#[inline]
pub fn take(list: &[u8]) -> Result<(u32, &[u8]), Refusal> {
    match list {
        [only @ 0..MORE, rest @ ..] => Ok((u32::from(*only), rest)),
        _ => take_groups(list),
    }
}

fn take_groups(list: &[u8]) -> Result<(u32, &[u8]), Refusal> {
    let mut sum = 0;
    for (place, group) in list.iter().take(MOST_GROUPS).enumerate() {
        sum |= u64::from(group & !MORE) << (7 * place);
        if *group < MORE {
            // A group of zero at the end adds nothing: without it the number is shorter.
            let shortest = *group != 0 || place == 0;
            let number = u32::try_from(sum).ok().filter(|_| shortest);
            return Ok((number.ok_or(Refusal::StoredNumber)?, &list[place + 1..]));
        }
    }
    let early = list.len() < MOST_GROUPS;
    Err(if early { Refusal::StoredShort } else { Refusal::StoredNumber })
}

/// How many groups a number has.
pub fn size(number: u32) -> usize {
    (number | 1).ilog2() as usize / 7 + 1
}

/// Puts a number at the start of a room that holds it; the room behind it.
pub fn put(mut number: u32, mut room: &mut [u8]) -> &mut [u8] {
    while number >= u32::from(MORE) {
        room[0] = number as u8 | MORE;
        room = &mut room[1..];
        number >>= 7;
    }
    room[0] = number as u8;
    &mut room[1..]
}

/// "n≥0 as 2n, n<0 as -2n-1".
pub fn folded(word: u32) -> u32 {
    let n = word as i32;
    (n << 1 ^ n >> 31) as u32
}

pub fn unfolded(number: u32) -> u32 {
    number >> 1 ^ (number & 1).wrapping_neg()
}
