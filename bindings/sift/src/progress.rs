//! A line on the terminal that says how far a long job is.

use std::io::{IsTerminal, Write};
use std::time::{Duration, Instant};

/// A job shorter than this shows nothing.
const PATIENCE: Duration = Duration::from_millis(500);

/// The time between two lines.
const PAUSE: Duration = Duration::from_millis(100);

/// The most letters of a page's number and name.
const PAGE: usize = 50;

pub struct Progress {
    /// Not where standard error goes into a file, nor with `--quiet`.
    wanted: bool,
    next: Instant,
    shown: bool,
}

impl Progress {
    pub fn new(quiet: bool) -> Self {
        Progress {
            wanted: !quiet && std::io::stderr().is_terminal(),
            next: Instant::now() + PATIENCE,
            shown: false,
        }
    }

    /// Shows that this band is being served.
    pub fn band(&mut self, page: &str, band: usize, bands: usize) {
        let now = Instant::now();
        if !self.wanted || now < self.next {
            return;
        }
        self.next = now + PAUSE;
        self.shown = true;
        // a line that is too long could not be replaced
        let page: String = page.chars().take(PAGE).collect();
        self.line(&format!("{page}: band {band} of {bands}"));
    }

    /// Takes the line away, before anything else is written.
    pub fn clear(&mut self) {
        if self.shown {
            self.shown = false;
            self.line("");
        }
    }

    /// Replaces the line; a terminal that fails is no reason to stop a job.
    fn line(&self, text: &str) {
        let mut stderr = std::io::stderr().lock();
        let _ = write!(stderr, "\r\x1B[K{text}").and_then(|()| stderr.flush());
    }
}

impl Drop for Progress {
    fn drop(&mut self) {
        self.clear();
    }
}
