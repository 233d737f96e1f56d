//! Letters, and what rtf-parser 0.4.3 answers to them. Nothing here is linked with our library.
//!
//!   letters   listed letters: short strings, bytes everywhere, names, numbers, long ones
//!   grammar   letters at random
//!   mutate    damaged letters
//!   fragments, reading_grammar   letters for the whole reading, listed and at random
//!   standard_letters, standard_grammar   the same for standard reading
//!   oracle    the crate's answers, from both of its builds; mended, what it is asked by paragraphs
//!   cut       the form of the crate's cuttings
//!   whole     the form of its readings
//!   room      what is lent for a call
//!   program   modes and options of the programs
//!   bridge    our library on another processor

pub mod bridge;
pub mod cut;
pub mod fragments;
pub mod grammar;
pub mod letters;
pub mod mended;
pub mod mutate;
pub mod oracle;
pub mod program;
pub mod random;
pub mod reading_grammar;
pub mod room;
pub mod standard_grammar;
pub mod standard_letters;
pub mod whole;

/// Reads `--name NUMBER` pairs over the numbers given for the names.
pub fn options<const N: usize>(
    words: &[String],
    defaults: [(&str, u64); N],
) -> Result<[u64; N], String> {
    let mut numbers = defaults.map(|(_, number)| number);
    for pair in words.chunks(2) {
        let [name, number] = pair else {
            return Err(format!("{} without a number", pair[0]));
        };
        let place = defaults.iter().position(|(known, _)| known == name);
        let place = place.ok_or_else(|| format!("no option {name}"))?;
        numbers[place] = number.parse().map_err(|_| format!("{name} {number}: no number"))?;
    }
    Ok(numbers)
}
