//! Fragments as pages, and what the browser tells of them.

use std::fs;
use std::path::{Path, PathBuf};
use std::process::{Command, Stdio};

pub const MARKS: [&str; 6] = ["b", "i", "u", "sup", "sub", "s"];
/// Bytes of fragments in a page, and how many.
const PAGE_BYTES: usize = 400_000;
const PAGE_FRAGMENTS: usize = 400;

/// How a fragment comes into a page: in its source, or as an element's innerHTML.
#[derive(Debug, Clone, Copy, PartialEq, Eq)]
pub enum Way {
    Parsed,
    Set,
}

/// What the browser has of a fragment.
#[derive(Debug, Default)]
pub struct Shown {
    /// Elements by name, and attributes by `@` and their name.
    pub elements: Vec<(String, usize)>,
    /// For each node directly below: the elements around its text, outermost first with dots between,
    /// and the text; more than one entry where the text has several surroundings.
    pub spans: Vec<(String, String)>,
}

impl Shown {
    pub fn count(&self, name: &str) -> usize {
        self.elements.iter().find(|(n, _)| n == name).map_or(0, |(_, count)| *count)
    }
}

pub struct Browser<'a> {
    pub chromium: &'a str,
    pub folder: &'a Path,
}

impl Browser<'_> {
    /// What it has of each fragment, for each of the ways.
    pub fn show(&self, fragments: &[&[u8]], ways: &[Way]) -> Result<Vec<Vec<Shown>>, String> {
        let mut all = Vec::new();
        let mut rest = fragments;
        while !rest.is_empty() {
            let (page, behind) = rest.split_at(in_a_page(rest));
            rest = behind;
            all.extend(self.show_page(page, ways)?);
            eprintln!("browser: {} of {} fragments shown", all.len(), fragments.len());
        }
        Ok(all)
    }

    fn show_page(&self, fragments: &[&[u8]], ways: &[Way]) -> Result<Vec<Vec<Shown>>, String> {
        let mut page = head("");
        let mut given = String::new();
        for fragment in fragments {
            if ways.contains(&Way::Parsed) {
                page.extend([b"<div>", *fragment, b"</div>\n"].concat());
            }
            if ways.contains(&Way::Set) {
                given += &format!("\"{}\",\n", encoded(fragment));
            }
        }
        let script = include_str!("page.js");
        page.extend(format!("<script>\nconst given = [\n{given}];\n{script}</script>\n").bytes());
        let file = self.folder.join("page.html");
        write(&file, &page)?;
        let told = self.run(&file, &["--dump-dom".to_string()])?;
        let told = String::from_utf8(told).map_err(|error| error.to_string())?;
        let lines = told.split_once("BEGIN\n").and_then(|(_, rest)| rest.split_once("\nEND"));
        let (lines, _) = lines.ok_or("the browser told nothing: its script did not end")?;
        let mut all: Vec<Vec<Shown>> = fragments.iter().map(|_| Vec::new()).collect();
        for line in lines.lines() {
            let (number, shown) = shown(line).ok_or_else(|| format!("the browser told {line}"))?;
            all.get_mut(number).ok_or("more fragments than were given")?.push(shown);
        }
        match all.iter().all(|shown| shown.len() == ways.len()) {
            true => Ok(all),
            false => Err("not all fragments were told".to_string()),
        }
    }

    /// A picture of a fragment, as a mail page might show it.
    pub fn picture(&self, fragment: &[u8], name: &str) -> Result<PathBuf, String> {
        let style = "<style>body { margin: 24px; font: 18px/1.4 sans-serif }\n\
                     div { white-space: pre-wrap }</style>\n";
        let page = [&head(style)[..], b"<div>", fragment, b"</div>\n"].concat();
        let [file, picture] = ["html", "png"].map(|end| self.folder.join(format!("{name}.{end}")));
        write(&file, &page)?;
        let size = "--window-size=800,300".to_string();
        self.run(&file, &[format!("--screenshot={}", absolute(&picture)?), size])?;
        match picture.exists() {
            true => Ok(picture),
            false => Err("the browser made no picture".to_string()),
        }
    }

    fn run(&self, page: &Path, words: &[String]) -> Result<Vec<u8>, String> {
        let profile = format!("--user-data-dir={}", absolute(&self.folder.join("profile"))?);
        // Its sandbox wants rights that a container seldom has; it reads nothing but our pages.
        let always = ["--headless", "--no-sandbox", "--disable-gpu", "--disable-dev-shm-usage"];
        let output = Command::new(self.chromium)
            .args(always)
            .arg(profile)
            .args(words)
            .arg(format!("file://{}", absolute(page)?))
            .stdin(Stdio::null())
            .output()
            .map_err(|error| format!("{}: {error}", self.chromium))?;
        if !output.status.success() {
            let said = String::from_utf8_lossy(&output.stderr);
            return Err(format!("{} ended with {}:\n{said}", self.chromium, output.status));
        }
        Ok(output.stdout)
    }
}

fn head(style: &str) -> Vec<u8> {
    let head = "<!doctype html>\n<html lang=\"en\">\n<meta charset=\"utf-8\">\n<title>-</title>\n";
    format!("{head}{style}<body>\n").into_bytes()
}

/// How many of the first fragments a page takes: at least one.
fn in_a_page(fragments: &[&[u8]]) -> usize {
    let mut bytes = 0;
    let fits = fragments.iter().take(PAGE_FRAGMENTS).take_while(|fragment| {
        bytes += fragment.len();
        bytes <= PAGE_BYTES
    });
    fits.count().max(1)
}

fn shown(line: &str) -> Option<(usize, Shown)> {
    let [_way, number, elements, spans] = line.split(' ').collect::<Vec<_>>().try_into().ok()?;
    let mut shown = Shown::default();
    for element in elements.split(',').filter(|element| *element != "-") {
        let (name, count) = element.split_once('=')?;
        shown.elements.push((name.to_string(), count.parse().ok()?));
    }
    for part in spans.split([';', '|']).filter(|part| *part != "-") {
        let (around, text) = part.split_once(':')?;
        shown.spans.push((around.to_string(), String::from_utf8(decoded(text)?).ok()?));
    }
    Some((number.parse().ok()?, shown))
}

const DIGITS: &[u8; 64] = b"ABCDEFGHIJKLMNOPQRSTUVWXYZabcdefghijklmnopqrstuvwxyz0123456789+/";

fn encoded(bytes: &[u8]) -> String {
    let mut text = String::new();
    for three in bytes.chunks(3) {
        let number =
            (0..3).fold(0, |sum, place| sum << 8 | u32::from(*three.get(place).unwrap_or(&0)));
        for place in 0..4 {
            let digit = DIGITS[(number >> (18 - 6 * place) & 63) as usize];
            text.push(if place <= three.len() { char::from(digit) } else { '=' });
        }
    }
    text
}

fn decoded(text: &str) -> Option<Vec<u8>> {
    let mut bytes = Vec::new();
    for four in text.as_bytes().chunks(4) {
        let digits: Vec<u32> = four
            .iter()
            .take_while(|digit| **digit != b'=')
            .map(|digit| DIGITS.iter().position(|known| known == digit).map(|place| place as u32))
            .collect::<Option<_>>()?;
        let number = (0..4).fold(0, |sum, place| sum << 6 | digits.get(place).unwrap_or(&0));
        bytes.extend_from_slice(&number.to_be_bytes()[1..digits.len()]);
    }
    Some(bytes)
}

fn write(file: &Path, bytes: &[u8]) -> Result<(), String> {
    fs::write(file, bytes).map_err(|error| format!("{}: {error}", file.display()))
}

fn absolute(path: &Path) -> Result<String, String> {
    let path = std::path::absolute(path).map_err(|error| error.to_string())?;
    Ok(path.display().to_string())
}
