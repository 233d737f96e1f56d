//! Programs as processes: started, fed a letter, waited for.

use crate::clock::Times;
use crate::letters::mail;
use crate::table::{count, figure, Table};
use std::fs::File;
use std::path::{Path, PathBuf};
use std::process::{Command, Stdio};
use std::time::Instant;

const OURS: usize = 0;
const PROGRAMS: usize = 4;
/// The extractor takes no more than the last.
const SIZES: [usize; 3] = [300, 2_048, 8_192];
/// Processes that are started before any is timed.
const UNTIMED: usize = 5;

const HEADING: &str = "\
## Processes

Milliseconds from the start of a process to its end, medians over the rounds: each round starts every
program once on every letter of ordinary mail, one after the other. The letter is the process's
standard input, and its output goes to `/dev/null`. \"times\" is how many times as fast the extractor
is, the median of the rounds' own ratios. `true` reads nothing: what starting a process takes.
";

struct Program {
    name: &'static str,
    path: PathBuf,
    arguments: &'static [&'static str],
    is_here: bool,
}

/// A letter in a file, with the times of its processes.
struct Row {
    bytes: usize,
    file: PathBuf,
    times: Times<PROGRAMS>,
}

pub struct Processes {
    programs: [Program; PROGRAMS],
    rows: Vec<Row>,
}

/// The extractor at `extractor` against the others, on letters in files of `folder`.
pub fn run(rounds: usize, extractor: &Path, folder: &Path) -> std::io::Result<Processes> {
    let programs = [
        Program::new("extractor", extractor, &[]),
        Program::new("catdoc", Path::new("catdoc"), &[]),
        Program::new("unrtf", Path::new("unrtf"), &["--text"]),
        Program::new("true", Path::new("true"), &[]),
    ];
    std::fs::create_dir_all(folder)?;
    let rows: std::io::Result<Vec<Row>> =
        SIZES.iter().map(|size| Row::new(*size, folder)).collect();
    let mut all = Processes { programs, rows: rows? };
    all.find();
    for round in 0..rounds + UNTIMED {
        for row in &mut all.rows {
            row.round(&all.programs);
        }
        if round + 1 == UNTIMED {
            all.rows.iter_mut().for_each(|row| row.times = Times::new());
        }
    }
    Ok(all)
}

impl Program {
    fn new(name: &'static str, path: &Path, arguments: &'static [&'static str]) -> Self {
        Program { name, path: path.to_path_buf(), arguments, is_here: false }
    }

    fn command(&self, letter: &Path) -> Option<Command> {
        let mut command = Command::new(&self.path);
        command.args(self.arguments).stdin(File::open(letter).ok()?).stderr(Stdio::null());
        Some(command)
    }

    /// Whether it starts and, but for `true`, writes something.
    fn answers(&self, letter: &Path) -> bool {
        let output = self.command(letter).and_then(|mut command| command.output().ok());
        output.is_some_and(|output| {
            output.status.success() && (self.name == "true" || !output.stdout.is_empty())
        })
    }

    /// Milliseconds of one process.
    fn time(&self, letter: &Path) -> f64 {
        let Some(mut command) = self.command(letter).filter(|_| self.is_here) else {
            return f64::NAN;
        };
        command.stdout(Stdio::null());
        let start = Instant::now();
        let ended = command.status().is_ok_and(|status| status.success());
        let passed = start.elapsed().as_secs_f64() * 1e3;
        if ended {
            passed
        } else {
            f64::NAN
        }
    }
}

impl Row {
    fn new(bytes: usize, folder: &Path) -> std::io::Result<Row> {
        let file = folder.join(format!("mail-{bytes}.rtf"));
        std::fs::write(&file, mail(bytes))?;
        Ok(Row { bytes, file, times: Times::new() })
    }

    fn round(&mut self, programs: &[Program; PROGRAMS]) {
        let file = &self.file;
        self.times.round(|side| programs[side].time(file));
    }
}

impl Processes {
    fn find(&mut self) {
        for program in &mut self.programs {
            program.is_here = self.rows.iter().all(|row| program.answers(&row.file));
        }
    }

    pub fn print(&self) {
        println!("\n{HEADING}");
        let missing: Vec<&str> =
            self.programs.iter().filter(|program| !program.is_here).map(|p| p.name).collect();
        if !missing.is_empty() {
            println!("Not here: {}. `apt-get install catdoc unrtf`.\n", missing.join(", "));
        }
        let mut heads = vec!["letter", "bytes"];
        for program in &self.programs {
            heads.push(program.name);
            if program.name != self.programs[OURS].name {
                heads.push("times");
            }
        }
        let mut table = Table::new(&heads);
        self.rows.iter().for_each(|row| table.row(row.cells()));
        table.print();
    }

    /// How many times as fast as the program of such a name, on each letter.
    pub fn times(&self, name: &str) -> Vec<(f64, String)> {
        let program = self.programs.iter().position(|program| program.name == name);
        let side = program.expect("a program");
        let times =
            |row: &Row| (row.times.times(OURS, side), format!("mail, {}", count(row.bytes)));
        self.rows.iter().map(times).collect()
    }
}

impl Row {
    fn cells(&self) -> Vec<String> {
        let mut cells = vec!["mail".to_string(), count(self.bytes)];
        for side in 0..PROGRAMS {
            cells.push(figure(self.times.median(side)));
            if side != OURS {
                cells.push(figure(self.times.times(OURS, side)));
            }
        }
        cells
    }
}
