//! How far long work is, on a terminal.

use std::cell::Cell;
use std::io::{self, IsTerminal, Write};

// Of the bar, which is drawn anew when it grows.
const WIDTH: usize = 20;

/// Shown on standard error while it is a terminal, in one line that is written over and taken away at the end.
pub struct Progress {
    what: &'static str,
    all: usize,
    is_shown: bool,
    drawn: Cell<Option<usize>>,
}

impl Progress {
    /// Of so much work, counted in this.
    pub fn new(what: &'static str, all: usize) -> Progress {
        Progress { what, all, is_shown: io::stderr().is_terminal(), drawn: Cell::new(None) }
    }

    pub fn show(&self, done: usize) {
        let share = WIDTH * done / self.all.max(1);
        if self.is_shown && self.drawn.replace(Some(share)) != Some(share) {
            let bar = "#".repeat(share);
            // a terminal that is gone is no reason to stop
            let _ = write!(io::stderr(), "\r[{bar:<WIDTH$}] {done} of {} {}", self.all, self.what);
        }
    }
}

impl Drop for Progress {
    fn drop(&mut self) {
        if self.is_shown {
            let _ = write!(io::stderr(), "\r\x1b[K");
        }
    }
}
