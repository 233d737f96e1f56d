//! Rules with a fault each.

use crate::{Asked, Rule};

pub struct Fault {
    pub name: String,
    pub rule: Rule,
    /// Whether a browser can see it: not what only refusals or the room show, nor what it mends.
    pub in_browser: bool,
}

pub fn all() -> Vec<Fault> {
    let mut all = Vec::new();
    let mut fault = |name: &str, in_browser, change: &dyn Fn(&mut Rule)| {
        let mut rule = Rule::right();
        change(&mut rule);
        all.push(Fault { name: name.to_string(), rule, in_browser });
    };
    let right = Rule::right();
    for (place, (character, _)) in right.escapes.iter().enumerate() {
        // A browser takes these two for themselves, and a line feed for white space.
        let mended = matches!(*character, ">" | "\"");
        let name = format!("{character:?} not escaped");
        fault(&name, !mended, &|rule| _ = rule.escapes.remove(place));
    }
    fault("& escaped after the others", true, &|rule| rule.escapes.rotate_left(1));
    fault("line feed before <", true, &|rule| rule.escapes.rotate_right(1));
    fault("< as &gt;", true, &|rule| rule.escapes[1].1 = "&gt;");
    fault("an escape without its semicolon", false, &|rule| rule.escapes[0].1 = "&amp");
    fault("line feed as <br/>", false, &|rule| rule.escapes[4].1 = "<br/>");
    fault("tags closed in opening order", false, &|rule| rule.closes_in_opening_order = true);
    for place in 0..right.marks.len() {
        let other = (place + 1) % right.marks.len();
        let name = format!("<{}> for <{}>", right.marks[other].1, right.marks[place].1);
        fault(&name, true, &|rule| rule.marks[place].1 = right.marks[other].1);
        let name = format!("no <{}>", right.marks[place].1);
        fault(&name, true, &|rule| _ = rule.marks.remove(place));
    }
    fault("marks nested the other way", true, &|rule| rule.marks.reverse());
    fault("small capitals with a tag", true, &|rule| rule.marks.push((32, "small")));
    fault("a span with a class", true, &|rule| rule.span[0] = "<span class=a>");
    fault("a line feed between spans", true, &|rule| rule.span[1] = "</span>\n");
    fault("a span for no blocks", true, &|rule| rule.empty = "<span></span>");
    fault("27 before 24", false, &|rule| rule.refusals.swap(0, 1));
    fault("25 before 27", false, &|rule| rule.refusals.swap(1, 2));
    fault("25 before 24 and 27", false, &|rule| rule.refusals.rotate_right(1));
    fault("no 24", false, &|rule| _ = rule.refusals.remove(0));
    fault("26 as the stored form has it", false, &|rule| rule.refusals.insert(1, Asked::Indent));
    fault("carriage return let through", false, &|rule| {
        rule.is_control = |byte| byte < 32 && !matches!(byte, b'\t' | b'\n' | b'\r');
    });
    fault("tab refused", false, &|rule| rule.is_control = |byte| byte < 32 && byte != b'\n');
    fault("line feed refused", false, &|rule| rule.is_control = |byte| byte < 32 && byte != b'\t');
    fault("31 let through", false, &|rule| {
        rule.is_control = |byte| byte < 31 && !matches!(byte, b'\t' | b'\n');
    });
    fault("127 refused", false, &|rule| {
        rule.is_control = |byte| byte < 32 && !matches!(byte, b'\t' | b'\n') || byte == 127;
    });
    fault("a room of just enough refused", false, &|rule| rule.spare = 1);
    fault("the room's rest not cleared", false, &|rule| rule.clears = false);
    all
}
