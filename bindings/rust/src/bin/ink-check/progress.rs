//! A progress line on standard error, where that is a terminal.

use std::io::{IsTerminal, Write, stderr};
use std::time::{Duration, Instant};

/// From so many files on there is a progress line.
const MANY: usize = 20;

/// The time between two progress lines.
const PAUSE: Duration = Duration::from_millis(100);

/// The progress of a run.
pub struct Progress {
    total: usize,
    wanted: bool,
    shown: bool,
    next: Instant,
}

impl Progress {
    /// The progress of a run over so many files.
    pub fn new(total: usize) -> Self {
        Progress {
            total,
            wanted: total >= MANY && stderr().is_terminal(),
            shown: false,
            next: Instant::now() + PAUSE,
        }
    }

    /// Shows how many files are done, if it is time to.
    pub fn show(&mut self, done: usize) {
        if self.wanted && Instant::now() >= self.next {
            let total = self.total;
            let _ = write!(stderr(), "\r\x1b[K{done} of {total} files checked");
            self.shown = true;
            self.next = Instant::now() + PAUSE;
        }
    }

    /// Takes the line away.
    pub fn clear(&mut self) {
        if self.shown {
            let _ = write!(stderr(), "\r\x1b[K");
            self.shown = false;
        }
    }
}
