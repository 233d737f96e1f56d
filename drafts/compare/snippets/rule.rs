//! The snippet once more, from request A12's text alone: over characters, and over bytes that need
//! not be UTF-8.

/// Characters of a snippet.
pub const MOST: usize = 140;

/// White space as 01 names it.
fn is_white(character: char) -> bool {
    matches!(character, '\t'..='\r' | ' ')
}

/// The snippet of a text, of so many characters at most.
pub fn of_text(text: &str, most: usize) -> String {
    let words: Vec<&str> = text.split(is_white).filter(|word| !word.is_empty()).collect();
    let all: Vec<char> = words.join(" ").chars().collect();
    if all.len() <= most {
        return all.iter().collect();
    }
    let first = &all[..most];
    let space = first.iter().rposition(|character| *character == ' ');
    first[..space.unwrap_or(most)].iter().collect()
}

/// The same for any bytes: a character starts at each byte that is none of 0x80 to 0xBF. Bytes of
/// these in front of all characters belong to none.
pub fn of_bytes(bytes: &[u8], most: usize) -> Vec<u8> {
    let words = bytes.split(|byte| is_white(char::from(*byte))).filter(|word| !word.is_empty());
    let mut all = words.collect::<Vec<_>>().join(&b' ');
    let next = starts(&all).nth(most);
    if let Some(end) = next {
        all.truncate(end);
        if let Some(space) = all.iter().rposition(|byte| *byte == b' ') {
            all.truncate(space);
        }
    }
    all
}

/// The places where characters start.
pub fn starts(bytes: &[u8]) -> impl Iterator<Item = usize> + '_ {
    (0..bytes.len()).filter(|place| !matches!(bytes[*place], 0x80..=0xBF))
}
