//! Shows our fragments of HTML to a browser, and compares what it has as spans, marks and text with
//! the block lists that they were made of. browser/run builds and starts it.
//!
//!   texts    block lists: letters, listed texts, texts at random
//!   pages    fragments as pages, and what the browser tells of them
//!   ours     our library, or the models in its place

mod ours;
mod pages;
// Not all of it is used here.
#[allow(dead_code)]
#[path = "../compare/common/random.rs"]
mod random;
mod texts;

use pages::{Browser, Shown, Way};
use std::collections::BTreeMap;
use std::fs;
use std::path::Path;
use std::process::ExitCode;
use texts::List;

const USAGE: &str = "usage: sh browser/run [--model] [--seed N] [--count N]";
/// Differences that are printed.
const PRINTED: usize = 10;
const SHOWN_BYTES: usize = 300;
/// A fragment, and what the browser must have of it: each span's marks and text; for a text whose
/// blocks are not known, the text alone.
struct Case {
    name: String,
    fragment: Vec<u8>,
    should: Should,
}

enum Should {
    Spans(Vec<(String, String)>),
    Text(String),
}

fn main() -> ExitCode {
    match run() {
        Ok(true) => ExitCode::SUCCESS,
        Ok(false) => ExitCode::from(1),
        Err(message) => {
            eprintln!("browser: {message}");
            ExitCode::from(2)
        }
    }
}

fn run() -> Result<bool, String> {
    let words: Vec<String> = std::env::args().skip(1).collect();
    let [chromium, folder, words @ ..] = words.as_slice() else {
        return Err(USAGE.to_string());
    };
    let (mut seed, mut count, mut letters) = (1, 600, Vec::new());
    let mut words = words.iter();
    while let Some(word) = words.next() {
        let mut number = || words.next().and_then(|word| word.parse().ok()).ok_or(USAGE);
        match word.as_str() {
            "--seed" => seed = number()?,
            "--count" => count = number()?,
            _ if word.starts_with('-') => return Err(USAGE.to_string()),
            _ => letters.push(Path::new(word)),
        }
    }
    let browser = Browser { chromium, folder: Path::new(folder) };
    println!("seed {seed}, count {count}; {} makes the fragments", ours::NAME);
    let shown = faults(&browser)?;
    let mut cases = Vec::new();
    for letter in &letters {
        of_letter(letter, &mut cases)?;
    }
    of_scripts(browser.folder, &mut cases)?;
    for list in texts::listed().into_iter().chain(texts::drawn(seed, count as usize)) {
        cases.push(case(list)?);
    }
    let differences = compare(&browser, &cases)?;
    pictures(&browser, &cases)?;
    println!("browser: {} fragments compared, {differences} differences", cases.len());
    Ok(differences == 0 && shown)
}

/// A letter in each reading, by the library's reading and HTML.
fn of_letter(path: &Path, cases: &mut Vec<Case>) -> Result<(), String> {
    let letter = fs::read(path).map_err(|error| format!("{}: {error}", path.display()))?;
    let stem = path.file_stem().unwrap_or_default().to_string_lossy().to_string();
    for (reading, name) in ["plain", "paragraphs", "standard"].into_iter().enumerate() {
        let (blocks, text) = ours::read(&letter, reading)
            .map_err(|refusal| format!("{}: refused by {refusal}", path.display()))?;
        cases.push(case(List { name: format!("{stem}, {name}"), blocks, text })?);
    }
    Ok(())
}

/// What browser/run kept of `sh read`: NAME.html, with a line feed behind the fragment, and NAME.txt.
fn of_scripts(folder: &Path, cases: &mut Vec<Case>) -> Result<(), String> {
    let Ok(entries) = fs::read_dir(folder.join("read")) else {
        return Ok(());
    };
    let mut paths: Vec<_> = entries.flatten().map(|entry| entry.path()).collect();
    paths.sort();
    for path in paths.iter().filter(|path| path.extension().is_some_and(|end| end == "html")) {
        let read = |path: &Path| fs::read(path).map_err(|error| format!("{path:?}: {error}"));
        let mut fragment = read(path)?;
        if fragment.pop() != Some(b'\n') {
            return Err(format!("{path:?}: no line feed behind the fragment"));
        }
        let text = String::from_utf8(read(&path.with_extension("txt"))?);
        let text = text.map_err(|error| format!("{path:?}: {error}"))?;
        let name = path.file_stem().unwrap_or_default().to_string_lossy();
        cases.push(Case { name: format!("read, {name}"), fragment, should: Should::Text(text) });
    }
    Ok(())
}

fn case(list: List) -> Result<Case, String> {
    let fragment = ours::html(&list.blocks, &list.text)
        .map_err(|refusal| format!("{}: refused by {refusal}", list.name))?;
    Ok(Case { fragment, should: Should::Spans(list.spans()), name: list.name })
}

/// Whether fragments of rules with a fault each are told from ours, where a browser can see it.
fn faults(browser: &Browser) -> Result<bool, String> {
    let faults: Vec<_> = rule::faults().into_iter().filter(|fault| fault.in_browser).collect();
    let lists = texts::telling();
    let mut cases = Vec::new();
    for (fault, list) in faults.iter().flat_map(|fault| lists.iter().map(move |l| (fault, l))) {
        let told = fault.rule.told(&list.blocks, &list.text, usize::MAX);
        let fragment = told.map_err(|refusal| format!("{}: refused by {refusal}", fault.name))?;
        let should = Should::Spans(list.spans());
        cases.push(Case { name: fault.name.clone(), fragment, should });
    }
    let mut missed = 0;
    let shown = browser.show(&fragments(&cases), &[Way::Set])?;
    for (fault, (cases, shown)) in
        faults.iter().zip(cases.chunks(lists.len()).zip(shown.chunks(lists.len())))
    {
        if cases.iter().zip(shown).all(|(case, shown)| case.wrong(&shown[0]).is_none()) {
            missed += 1;
            println!("NOT SHOWN, fragments with a fault: {}", fault.name);
        }
    }
    println!(
        "faults that a browser can see: {} tried, {} shown",
        faults.len(),
        faults.len() - missed
    );
    Ok(missed == 0)
}

fn compare(browser: &Browser, cases: &[Case]) -> Result<usize, String> {
    let ways = [Way::Parsed, Way::Set];
    let mut elements = BTreeMap::new();
    let (mut differences, mut bytes, mut spans) = (0, 0, 0);
    for (case, shown) in cases.iter().zip(browser.show(&fragments(cases), &ways)?) {
        let wrong =
            shown.iter().zip(&ways).find_map(|(shown, way)| Some((case.wrong(shown)?, way)));
        for (name, count) in shown.iter().flat_map(|shown| &shown.elements) {
            *elements.entry(name.clone()).or_insert(0) += count;
        }
        bytes += case.fragment.len();
        spans += shown[0].spans.len();
        if let Some((what, way)) = wrong {
            differences += 1;
            if differences <= PRINTED {
                let start = &case.fragment[..case.fragment.len().min(SHOWN_BYTES)];
                println!("DIFFERENCE, {}, {way:?}: {what}\n  {}", case.name, start.escape_ascii());
            }
        }
    }
    let counts: Vec<String> =
        elements.iter().map(|(name, count)| format!("{name} {count}")).collect();
    println!(
        "fragments {}, their bytes {bytes}, spans {spans}; each shown in {} ways",
        cases.len(),
        ways.len()
    );
    println!("elements below them in all: {}", counts.join(", "));
    Ok(differences)
}

fn fragments(cases: &[Case]) -> Vec<&[u8]> {
    cases.iter().map(|case| case.fragment.as_slice()).collect()
}

/// Letters by standard reading, for the eye.
fn pictures(browser: &Browser, cases: &[Case]) -> Result<(), String> {
    for case in cases {
        if let Some(name) = case.name.strip_suffix(", standard") {
            println!("picture: {}", browser.picture(&case.fragment, name)?.display());
        }
    }
    Ok(())
}

impl Case {
    fn wrong(&self, shown: &Shown) -> Option<String> {
        // Only these, and without attributes.
        const BARE: [&str; 8] = ["span", "b", "i", "u", "sup", "sub", "s", "br"];
        if let Some((name, _)) = shown.elements.iter().find(|(n, _)| !BARE.contains(&n.as_str())) {
            return Some(format!("it has {name}"));
        }
        let text: String = shown.spans.iter().map(|(_, text)| text.as_str()).collect();
        let feeds = text.matches('\n').count();
        if shown.count("br") != feeds {
            return Some(format!("{} br for {feeds} line feeds", shown.count("br")));
        }
        match &self.should {
            // `--preview` ends the last line.
            Should::Text(should) => {
                let same = text == *should || text.clone() + "\n" == *should;
                (!same).then(|| format!("text {text:?}, should be {should:?}"))
            }
            Should::Spans(spans) if shown.count("span") != spans.len() => {
                Some(format!("{} spans, should be {}", shown.count("span"), spans.len()))
            }
            Should::Spans(spans) if *spans != shown.spans => {
                let both = spans.iter().zip(&shown.spans).find(|(should, is)| should != is);
                Some(format!("should and is: {both:?}"))
            }
            Should::Spans(spans) => pages::MARKS.into_iter().find_map(|mark| {
                let set =
                    |(marks, _): &&(String, String)| marks.split('.').any(|name| name == mark);
                let should = spans.iter().filter(set).count();
                let is = shown.count(mark);
                (is != should).then(|| format!("{is} {mark}, should be {should}"))
            }),
        }
    }
}
