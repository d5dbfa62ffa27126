//! What was seen: counts, and the times from a write to its sample, of a write, or from one sample to the next.

use crate::args::Role;
use std::fmt;
use std::time::Duration;

pub struct Summary {
    role: Role,
    times: Vec<Duration>,
    size: usize,
    pub repeated: u64,
    resent: u64,
    asked: u64,
    took: Duration,
}

impl Summary {
    pub fn new(role: Role, size: usize) -> Self {
        Summary { role, times: Vec::new(), size, repeated: 0, resent: 0, asked: 0, took: Duration::ZERO }
    }

    /// What it did with a message.
    pub fn did(&self) -> &'static str {
        match self.role {
            Role::Both => "wrote and read back",
            Role::Write => "wrote",
            Role::Read => "read",
        }
    }

    // The same of all of them, and what the times are of.
    fn words(&self) -> (&'static str, &'static str) {
        match self.role {
            Role::Both => ("written and read back", "write to sample"),
            Role::Write => ("written", "write to reply"),
            Role::Read => ("read", "sample to sample"),
        }
    }

    pub fn add(&mut self, time: Duration) {
        self.times.push(time);
    }

    pub fn finish(&mut self, took: Duration, resent: u64, asked: u64) {
        self.took = took;
        self.resent = resent;
        self.asked = asked;
        self.times.sort();
    }

    // The time that `part` of 1,000 messages stay within.
    fn within(&self, part: usize) -> u128 {
        let at = (self.times.len() * part).div_ceil(1000).max(1) - 1;
        self.times[at].as_micros()
    }
}

impl fmt::Display for Summary {
    fn fmt(&self, f: &mut fmt::Formatter<'_>) -> fmt::Result {
        let count = self.times.len();
        let rate = count as f64 / self.took.as_secs_f64().max(1e-9);
        let (done, times) = self.words();
        writeln!(f, "{count} messages of {} bytes {done}, none missing or wrong", self.size)?;
        writeln!(
            f,
            "{} requests sent again, {} times asked for repeats, {} samples came twice, {rate:.0} messages a second",
            self.resent, self.asked, self.repeated
        )?;
        let (half, most, worst) = (self.within(500), self.within(990), self.within(1000));
        writeln!(f, "{times}: half within {half} µs, 99 in 100 within {most} µs, all within {worst} µs")
    }
}
