//! What a run of `u` adds: units, those that stay, and their UTF-8.

use crate::Token;

/// The units of a run's tokens.
pub fn units(run: &[Token]) -> Vec<u32> {
    let unit = |token: &Token| {
        let number = i64::from(token[3] as i32);
        let unit = if number < 0 { number + 65_536 } else { number };
        (token[2] == 1 && (0..=65_535).contains(&unit)).then_some(unit as u32)
    };
    run.iter().filter_map(unit).collect()
}

/// Those that stay under a skip count.
pub fn kept(units: &[u32], count: i32) -> Vec<u32> {
    let mut kept = Vec::new();
    let mut skipped: i64 = 0;
    for (place, unit) in units.iter().enumerate() {
        if place > 0 && *unit <= 255 && skipped < i64::from(count) {
            skipped += 1;
        } else {
            skipped = 0;
            kept.push(*unit);
        }
    }
    kept
}

/// The units' UTF-8, U+FFFD for an unpaired surrogate; true if there was one.
pub fn utf8(units: &[u32]) -> (Vec<u8>, bool) {
    let mut text = Vec::new();
    let mut unpaired = false;
    let mut rest = units;
    while let [unit, after @ ..] = rest {
        rest = after;
        let scalar = match (*unit, after.first()) {
            (0xD800..=0xDBFF, Some(low @ 0xDC00..=0xDFFF)) => {
                rest = &after[1..];
                0x10000 + (unit - 0xD800) * 0x400 + (low - 0xDC00)
            }
            (0xD800..=0xDFFF, _) => {
                unpaired = true;
                0xFFFD
            }
            (scalar, _) => scalar,
        };
        push(scalar, &mut text);
    }
    (text, unpaired)
}

fn push(scalar: u32, text: &mut Vec<u8>) {
    let low = |groups: u32| 0x80 + (scalar >> (6 * groups)) as u8 % 64;
    let high = |groups: u32| (scalar >> (6 * groups)) as u8;
    match scalar {
        0..=0x7F => text.push(high(0)),
        0x80..=0x7FF => text.extend([0xC0 + high(1), low(0)]),
        0x800..=0xFFFF => text.extend([0xE0 + high(2), low(1), low(0)]),
        _ => text.extend([0xF0 + high(3), low(2), low(1), low(0)]),
    }
}
