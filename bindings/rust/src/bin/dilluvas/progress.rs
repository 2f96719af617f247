//! The progress of long work, on standard error if that is a terminal.

use std::io::{self, IsTerminal, Write};
use std::time::{Duration, Instant};

// What is quicker shows nothing, and no line comes sooner behind another one.
const PAUSE: Duration = Duration::from_millis(250);

/// A line that is overwritten, and is cleared when this is dropped.
pub struct Progress {
    what: &'static str,
    // Of how many, where that is known.
    all: Option<u64>,
    last: Instant,
    is_terminal: bool,
    is_shown: bool,
}

impl Progress {
    pub fn new(what: &'static str, all: Option<u64>) -> Progress {
        Progress {
            what,
            all: all.filter(|all| *all > 0),
            last: Instant::now(),
            is_terminal: io::stderr().is_terminal(),
            is_shown: false,
        }
    }

    /// Shows that `done` are done.
    pub fn tell(&mut self, done: u64) {
        if !self.is_terminal || self.last.elapsed() < PAUSE {
            return;
        }
        (self.last, self.is_shown) = (Instant::now(), true);
        let line = match self.all {
            Some(all) => format!("{} {done} ({} %)", self.what, percent(done, all)),
            None => format!("{} {done}", self.what),
        };
        write_over(&line);
    }

    /// Shows at once what is being done, for work without a count.
    pub fn begin(&mut self) {
        if self.is_terminal {
            self.is_shown = true;
            write_over(self.what);
        }
    }
}

impl Drop for Progress {
    fn drop(&mut self) {
        if self.is_shown {
            write_over("");
        }
    }
}

fn percent(done: u64, all: u64) -> u128 {
    (u128::from(done) * 100 / u128::from(all)).min(100)
}

fn write_over(line: &str) {
    // nothing depends on it
    let _ = write!(io::stderr(), "\r{line}\x1b[K");
}
