// Included once for each build of the crate, which the includer names `rtf_parser`.

use crate::cut;
use rtf_parser::{ControlWord, Lexer, LexerError, Property, Token};

pub fn cut(source: &str) -> cut::Cut {
    match Lexer::scan(source) {
        Ok(tokens) => cut::Cut::Tokens(tokens.iter().map(|t| record(source, t)).collect()),
        Err(error) => cut::Cut::Refused(refusal(&error)),
    }
}

/// The crate's own work and nothing else, for timing: how many tokens.
pub fn scan(source: &str) -> usize {
    Lexer::scan(source).map_or(0, |tokens| std::hint::black_box(tokens).len())
}

fn refusal(error: &LexerError) -> u32 {
    match error {
        LexerError::InvalidUnicode(_) => cut::HEX_SHORT,
        LexerError::Error(text) if text.starts_with("[Lexer] Unable to parse") => cut::NUMBER_BAD,
        LexerError::Error(_) => cut::HEX_BAD,
        LexerError::InvalidLastChar => cut::LAST_SLICE,
    }
}

fn record(source: &str, token: &Token) -> cut::Told {
    match token {
        Token::PlainText(text) => {
            let (place, length) = span(source, text);
            [cut::TEXT, 0, 0, 0, place, length]
        }
        Token::OpeningBracket => [cut::OPEN, 0, 0, 0, 0, 0],
        Token::ClosingBracket => [cut::CLOSE, 0, 0, 0, 0, 0],
        Token::CRLF => [cut::LINE_BREAK, 0, 0, 0, 0, 0],
        Token::IgnorableDestination => [cut::IGNORABLE, 0, 0, 0, 0, 0],
        Token::ControlSymbol((word, property)) => {
            let (present, number) = number(property);
            let (place, length) = match word {
                ControlWord::Unknown(prefix) => span(source, prefix),
                _ => (0, 0),
            };
            [cut::WORD, word_number(word), present, number, place, length]
        }
        Token::Empty => panic!("the lexer gave Token::Empty"),
    }
}

/// Place and length of a part of the source, counted from the untrimmed source's start.
fn span(source: &str, part: &str) -> (u32, u32) {
    let place = part.as_ptr() as usize - source.as_ptr() as usize;
    (place as u32, part.len() as u32)
}

fn number(property: &Property) -> (u32, u32) {
    match property {
        Property::None => (0, 0),
        Property::Value(value) => (1, *value as u32),
        Property::On | Property::Off => panic!("the lexer gave Property::{property:?}"),
    }
}

#[rustfmt::skip]
fn word_number(word: &ControlWord) -> u32 {
    use ControlWord::*;
    match word {
        Rtf => 0, Ansi => 1, Unicode => 2, UnicodeIgnoreCount => 3,
        FontTable => 4, ColorTable => 5, FileTable => 6, StyleSheet => 7,
        FontCharset => 8, FontNumber => 9, FontSize => 10, ColorNumber => 11,
        Italic => 12, Bold => 13, Underline => 14, UnderlineNone => 15,
        Superscript => 16, Subscript => 17, Smallcaps => 18, Strikethrough => 19,
        Par => 20, Pard => 21, Sectd => 22, Plain => 23, ParStyle => 24, ParDefTab => 25,
        LeftAligned => 26, RightAligned => 27, Justify => 28, Center => 29,
        FirstLineIdent => 30, RightIndent => 31, LeftIndent => 32,
        SpaceBefore => 33, SpaceAfter => 34, SpaceBetweenLine => 35, SpaceLineMul => 36,
        ColorRed => 37, ColorGreen => 38, ColorBlue => 39,
        Emdash => 40, Endash => 41, Bullet => 42,
        LeftSingleQuote => 43, RightSingleQuote => 44,
        LeftDoubleQuote => 45, RightDoubleQuote => 46,
        Tab => 47, Line => 48,
        Unknown(_) => cut::UNKNOWN,
    }
}
