//! One block of a list: what it must keep to, how it is taken, put and laid out as a record.

use crate::{number, Refusal, BLOCK_WORDS, LENGTH, PLACE, STORED_WORDS, STYLE_WORDS};

/// The eleven words as they are stored.
pub type Style = [u32; STORED_WORDS];

/// Colour, font, size, flags, alignment, before, after, line kind and value, multiplier, tab.
const MOST: Style =
    [65_535, 65_535, 65_535, 127, 3, u32::MAX, u32::MAX, 1, 2_147_483_647, u32::MAX, u32::MAX];
const FOLDED: [usize; 4] = [5, 6, 9, 10];
const LINE_KIND: usize = 7;
const LINE_VALUE: usize = 8;
const AUTOMATIC: u32 = 0;

#[derive(Debug, Clone, Copy)]
pub struct Block<'a> {
    pub style: Style,
    pub text: &'a [u8],
}

impl<'a> Block<'a> {
    /// The block that a list starts with, and the bytes behind it. `before` is the style of the
    /// block before it.
    #[inline]
    pub fn take(list: &'a [u8], before: Option<&Style>) -> Result<(Self, &'a [u8]), Refusal> {
        let mut style = [0; STORED_WORDS];
        let mut rest = list;
        for word in &mut style {
            (*word, rest) = number::take(rest)?;
        }
        let (length, rest) = number::take(rest)?;
        if length == 0 || !keeps_rules(&style, before) {
            return Err(Refusal::StoredField);
        }
        let (text, rest) = rest.split_at_checked(length as usize).ok_or(Refusal::StoredShort)?;
        std::str::from_utf8(text).map_err(|_| Refusal::StoredField)?;
        Ok((Block { style, text }, rest))
    }

    /// The block of a record whose text starts at `place`; None if that is not in `text`.
    pub fn of_record(record: &[u32], text: &'a [u8], place: usize) -> Option<Self> {
        let mut style: Style = record[..STORED_WORDS].try_into().ok()?;
        FOLDED.iter().for_each(|word| style[*word] = number::folded(style[*word]));
        let [told, length] = [PLACE, LENGTH].map(|word| usize::try_from(record[word] as i32).ok());
        let text = text.get(place..place.checked_add(length?)?)?;
        (told? == place).then_some(Block { style, text })
    }

    pub fn lay(&self, record: &mut [u32], place: usize) {
        assert_eq!(record.len(), BLOCK_WORDS);
        record[..STORED_WORDS].copy_from_slice(&self.style);
        FOLDED.iter().for_each(|word| record[*word] = number::unfolded(record[*word]));
        record[STORED_WORDS..STYLE_WORDS].fill(0);
        record[PLACE] = place as u32;
        record[LENGTH] = self.text.len() as u32;
    }

    /// Whether a list may hold the block; `before` is the style before it, if indents are the same.
    pub fn is_good(&self, before: Option<&Style>) -> bool {
        let is_text = !self.text.is_empty() && std::str::from_utf8(self.text).is_ok();
        is_text && keeps_rules(&self.style, before)
    }

    pub fn size(&self) -> usize {
        let numbers: usize = self.numbers().map(number::size).sum();
        numbers + self.text.len()
    }

    /// Puts the block at the start of a room that holds it; the room behind it.
    pub fn put<'r>(&self, room: &'r mut [u8]) -> &'r mut [u8] {
        let room = self.numbers().fold(room, |room, number| number::put(number, room));
        let (text, room) = room.split_at_mut(self.text.len());
        text.copy_from_slice(self.text);
        room
    }

    fn numbers(&self) -> impl Iterator<Item = u32> + '_ {
        self.style.iter().copied().chain([self.text.len() as u32])
    }
}

/// All words are compared, with no way out between them: that is faster than to stop early.
fn keeps_rules(style: &Style, before: Option<&Style>) -> bool {
    let in_range = style.iter().zip(&MOST).fold(true, |all, (word, most)| all & (word <= most));
    let line = style[LINE_KIND] != AUTOMATIC || style[LINE_VALUE] == 0;
    in_range && line && before != Some(style)
}
