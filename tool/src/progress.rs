//! A progress bar on standard error, where that is a terminal.

use std::io::{self, IsTerminal, Write};
use std::time::{Duration, Instant};

const WIDTH: u64 = 40;
/// The room behind the bar.
const NOTE: usize = 70;
const PAUSE: Duration = Duration::from_millis(100);

pub struct Progress {
    total: u64,
    shown: Option<Instant>,
    on: bool,
}

impl Progress {
    pub fn new(total: u64) -> Progress {
        Progress { total, shown: None, on: io::stderr().is_terminal() }
    }

    /// So many are done.
    pub fn at(&mut self, done: u64) {
        self.at_with(done, "");
    }

    /// So many are done, with a note behind.
    pub fn at_with(&mut self, done: u64, note: &str) {
        let soon = self.shown.is_some_and(|shown| shown.elapsed() < PAUSE);
        if !self.on || soon {
            return;
        }
        self.shown = Some(Instant::now());
        let full = (WIDTH * done).checked_div(self.total).unwrap_or(WIDTH).min(WIDTH) as usize;
        let bar = format!("{}{}", "#".repeat(full), " ".repeat(WIDTH as usize - full));
        // A terminal that has gone away is no reason to stop.
        let _ = write!(io::stderr(), "\r[{bar}] {done} of {}  {note}", self.total);
    }
}

impl Drop for Progress {
    /// Clears the line.
    fn drop(&mut self) {
        if self.shown.is_some() {
            let _ = write!(io::stderr(), "\r{}\r", " ".repeat(WIDTH as usize + NOTE));
        }
    }
}
