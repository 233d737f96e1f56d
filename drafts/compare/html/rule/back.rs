//! A fragment read back: tags removed, `<br>` a line feed, the four escapes undone, in one pass.

use crate::MARKS;

/// What a `span` holds: the flags of the marks around its text, and that text.
#[derive(Debug, Clone, Default, PartialEq, Eq)]
pub struct Span {
    pub flags: u32,
    pub text: Vec<u8>,
}

const UNDONE: [(&[u8], u8); 4] =
    [(b"&amp;", b'&'), (b"&lt;", b'<'), (b"&gt;", b'>'), (b"&quot;", b'"')];

/// The spans of a fragment; none if anything in it is no bare `span`, mark, `<br>`, escape or text, if
/// a tag is not closed by its own, or if marks are not nested in their order around all text.
pub fn spans(fragment: &[u8]) -> Option<Vec<Span>> {
    let mut reader = Reader::default();
    let mut rest = fragment;
    while let Some(first) = rest.first() {
        let length = match first {
            b'<' => {
                let end = rest.iter().position(|byte| *byte == b'>')?;
                reader.tag(std::str::from_utf8(&rest[1..end]).ok()?)?;
                end + 1
            }
            b'&' => {
                let (escape, byte) = UNDONE.iter().find(|(escape, _)| rest.starts_with(escape))?;
                reader.text(*byte)?;
                escape.len()
            }
            b'>' | b'"' | b'\n' => return None,
            byte => {
                reader.text(*byte)?;
                1
            }
        };
        rest = &rest[length..];
    }
    reader.open.is_empty().then_some(reader.spans)
}

#[derive(Default)]
struct Reader<'a> {
    spans: Vec<Span>,
    /// Tags that are not closed yet.
    open: Vec<&'a str>,
}

impl<'a> Reader<'a> {
    fn tag(&mut self, tag: &'a str) -> Option<()> {
        if tag == "br" {
            return self.text(b'\n');
        }
        if let Some(closed) = tag.strip_prefix('/') {
            return self.open.pop().filter(|opened| *opened == closed).map(|_| ());
        }
        if tag == "span" && self.open.is_empty() {
            self.spans.push(Span::default());
        } else {
            let (flag, _) = MARKS.iter().find(|(_, name)| *name == tag)?;
            let span = self.span()?;
            if *flag <= span.flags || !span.text.is_empty() {
                return None;
            }
            span.flags |= flag;
        }
        self.open.push(tag);
        Some(())
    }

    fn text(&mut self, byte: u8) -> Option<()> {
        self.span()?.text.push(byte);
        Some(())
    }

    /// The span that is open.
    fn span(&mut self) -> Option<&mut Span> {
        self.spans.last_mut().filter(|_| !self.open.is_empty())
    }
}
