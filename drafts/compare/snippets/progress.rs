//! How far a long part has come.

use std::time::{Duration, Instant};

const OFTEN: u64 = 1 << 12;
const EVERY: Duration = Duration::from_secs(10);

pub struct Progress {
    name: String,
    /// How many were tried before the part.
    before: u64,
    shown: Instant,
}

impl Default for Progress {
    fn default() -> Self {
        Progress { name: String::new(), before: 0, shown: Instant::now() }
    }
}

impl Progress {
    pub fn start(&mut self, name: &str, before: u64) {
        *self = Progress { name: name.to_string(), before, shown: Instant::now() };
    }

    /// Says now and then how many of the part were tried.
    pub fn show(&mut self, tried: u64) {
        if tried % OFTEN == 0 && self.shown.elapsed() >= EVERY {
            self.shown = Instant::now();
            eprintln!("{}: {} so far", self.name, tried - self.before);
        }
    }
}
