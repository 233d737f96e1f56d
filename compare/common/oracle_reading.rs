// Included once for each build of the crate, behind oracle_tokens.rs.

use crate::whole::{self, Document, Whole};
use rtf_parser::{
    Alignment, Painter, Paragraph, Parser, ParserError, RtfDocument, SpaceBetweenLine,
};

/// The crate's reading; with `paragraphs`, its reading of the tokens with `line` for each `par`,
/// which is what 01 says that paragraph reading adds. What A2 adds is `mended`'s.
pub fn read(source: &str, paragraphs: bool) -> Whole {
    let mut tokens = match Lexer::scan(source) {
        Ok(tokens) => tokens,
        Err(error) => return Whole::Refused(refusal(&error)),
    };
    let records = tokens.iter().map(|t| record(source, t)).collect();
    if paragraphs {
        tokens.iter_mut().for_each(par_as_line);
    }
    match Parser::new(tokens).parse() {
        Ok(document) => Whole::Read(told(records, &document)),
        Err(error) => Whole::Refused(parser_refusal(&error)),
    }
}

/// The crate's own work and nothing else, for timing: how many blocks.
pub fn scan_and_parse(source: &str) -> usize {
    let Ok(tokens) = Lexer::scan(source) else {
        return 0;
    };
    Parser::new(tokens).parse().map_or(0, |document| std::hint::black_box(document).body.len())
}

fn par_as_line(token: &mut Token) {
    if let Token::ControlSymbol((word @ ControlWord::Par, _)) = token {
        *word = ControlWord::Line;
    }
}

fn parser_refusal(error: &ParserError) -> u32 {
    match error {
        ParserError::NoMoreToken => whole::NO_TOKENS,
        ParserError::InvalidToken(text) if text.starts_with("Invalid first token") => {
            whole::FIRST_TOKEN
        }
        ParserError::InvalidToken(text)
            if text.ends_with("is not a FontTable token")
                || text.ends_with("is not a ColorTable token") =>
        {
            whole::TABLE_LINE_BREAK
        }
        ParserError::InvalidFontIdentifier(_) => whole::FONT_NUMBER,
        ParserError::ValueCastError(_) => whole::NUMBER_FIELD,
        ParserError::IgnorableDestinationParsingError => whole::IGNORABLE_IN_BODY,
        ParserError::MalformedPainterStack => whole::NO_STATE,
        other => panic!("no number for {other:?}"),
    }
}

fn told(tokens: Vec<cut::Told>, document: &RtfDocument) -> Document {
    let header = &document.header;
    let mut fonts: Vec<(u32, Vec<u8>)> = header
        .font_table
        .iter()
        .map(|(key, font)| (u32::from(*key), font.name.as_bytes().to_vec()))
        .collect();
    fonts.sort();
    let colour = |key: usize| {
        let colour = &header.color_table[&(key as u16)];
        u32::from_be_bytes([0, colour.red, colour.green, colour.blue])
    };
    let colours = (1..=header.color_table.len()).map(colour).collect();
    let mut told = Document { tokens, fonts, colours, ..Document::default() };
    for block in &document.body {
        let mut words = [0; whole::BLOCK_WORDS];
        words[..4].copy_from_slice(&painter_words(&block.painter));
        words[4..14].copy_from_slice(&paragraph_words(&block.paragraph));
        words[14..].copy_from_slice(&[told.text.len() as u32, block.text.len() as u32]);
        told.blocks.push(words);
        told.text.extend_from_slice(block.text.as_bytes());
    }
    told
}

fn painter_words(painter: &Painter) -> [u32; 4] {
    let flags = [
        painter.bold,
        painter.italic,
        painter.underline,
        painter.superscript,
        painter.subscript,
        painter.smallcaps,
        painter.strike,
    ];
    let flags = flags.iter().rev().fold(0, |sum, flag| 2 * sum + u32::from(*flag));
    [painter.color_ref.into(), painter.font_ref.into(), painter.font_size.into(), flags]
}

fn paragraph_words(paragraph: &Paragraph) -> [u32; 10] {
    let alignment = match paragraph.alignment {
        Alignment::LeftAligned => 0,
        Alignment::RightAligned => 1,
        Alignment::Center => 2,
        Alignment::Justify => 3,
    };
    let Paragraph { spacing, indent, tab_width, .. } = paragraph;
    let (kind, value) = match spacing.between_line {
        SpaceBetweenLine::Auto => (0, 0),
        SpaceBetweenLine::Value(value) => (1, value),
        SpaceBetweenLine::Invalid => panic!("the crate never makes SpaceBetweenLine::Invalid"),
    };
    let signed = [
        alignment,
        spacing.before,
        spacing.after,
        kind,
        value,
        spacing.line_multiplier,
        *tab_width,
        indent.left,
        indent.right,
        indent.first_line,
    ];
    signed.map(|word| word as u32)
}
