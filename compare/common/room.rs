//! What is lent for one call, so that an element left unwritten, an element written outside the
//! room and a byte read outside the source all show.

const GUARD: usize = 8;

/// What a room is made of: words, or bytes of text.
pub trait Element: Copy + PartialEq {
    const GUARD: Self;
}

impl Element for u32 {
    const GUARD: u32 = 0x6B6B_6B6B;
}

impl Element for u8 {
    const GUARD: u8 = 0x6B;
}

/// A room full of junk between guard elements.
#[derive(Default)]
pub struct Room<T = u32> {
    elements: Vec<T>,
}

impl<T: Element> Room<T> {
    /// A room of so many elements, each of them `junk`.
    pub fn lend(&mut self, size: usize, junk: T) -> &mut [T] {
        self.elements.clear();
        self.elements.resize(GUARD, T::GUARD);
        self.elements.resize(GUARD + size, junk);
        self.elements.resize(GUARD + size + GUARD, T::GUARD);
        &mut self.elements[GUARD..GUARD + size]
    }

    pub fn lent(&self) -> &[T] {
        &self.elements[GUARD..self.elements.len() - GUARD]
    }

    pub fn guards_hold(&self) -> bool {
        let (front, rest) = self.elements.split_at(GUARD);
        let back = &rest[rest.len() - GUARD..];
        front.iter().chain(back).all(|element| *element == T::GUARD)
    }
}

/// A source between bytes that would change the answer if they were read: a backslash before it
/// would escape its first byte, and a brace after it would be its last slice.
#[derive(Default)]
pub struct Source {
    bytes: Vec<u8>,
}

impl Source {
    pub fn lend(&mut self, letter: &[u8]) -> &[u8] {
        self.bytes.clear();
        self.bytes.resize(GUARD, b'\\');
        self.bytes.extend_from_slice(letter);
        self.bytes.resize(GUARD + letter.len() + GUARD, b'}');
        &self.bytes[GUARD..GUARD + letter.len()]
    }
}
