//! A line of progress on standard error, if that is a terminal and it takes longer than a second.

use std::io::{stderr, IsTerminal, Write};
use std::time::{Duration, Instant};

pub struct Progress {
    total: u64,
    start: Instant,
    next: Duration,
    terminal: bool,
    shown: bool,
}

impl Progress {
    pub fn new(total: u64) -> Self {
        let terminal = stderr().is_terminal();
        Progress { total, start: Instant::now(), next: Duration::from_secs(1), terminal, shown: false }
    }

    pub fn at(&mut self, number: u64) {
        if self.terminal && self.start.elapsed() >= self.next {
            self.next += Duration::from_millis(250);
            self.shown = true;
            let _ = write!(stderr(), "\r{number} of {} messages", self.total);
            let _ = stderr().flush();
        }
    }

    pub fn done(&self) {
        if self.shown {
            let _ = write!(stderr(), "\r\x1b[K");
        }
    }
}
