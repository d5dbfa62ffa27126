//! A row of the table: what is done, on how many sessions and objects, and what was measured.

use crate::timed::Timed;

/// What is asked of a row.
#[derive(Clone, Copy, PartialEq, Eq)]
pub enum Goal {
    /// A datagram, at least five times as fast as the original.
    Datagram,
    /// The same for so many datagrams.
    Datagrams(usize),
    /// Parsing, at least four times as fast.
    Parsing,
    /// No slower than the original.
    NoSlower,
    /// None: shows what the clock adds.
    Clock,
}

/// Both sides of a row, freshly made.
pub struct Pair {
    pub port: Box<dyn Timed>,
    pub original: Box<dyn Timed>,
}

pub struct Row {
    pub name: &'static str,
    pub goal: Goal,
    /// 0: no session, or no object, has a part in it.
    pub sessions: usize,
    pub objects: usize,
    make: Box<dyn Fn() -> Pair>,
    /// Nanoseconds a turn, one for each batch.
    pub port: Vec<f64>,
    pub original: Vec<f64>,
}

impl Row {
    pub fn new(
        name: &'static str,
        goal: Goal,
        sessions: usize,
        objects: usize,
        make: impl Fn() -> Pair + 'static,
    ) -> Self {
        Self { name, goal, sessions, objects, make: Box::new(make), port: Vec::new(), original: Vec::new() }
    }

    /// Both sides, once they have shown the same bytes.
    pub fn pair(&self) -> Pair {
        let mut pair = (self.make)();
        let (port, original) = (pair.port.shown(), pair.original.shown());
        if port != original {
            eprintln!("{}, {} sessions, {} objects: the two differ", self.name, self.sessions, self.objects);
            eprintln!("port     {}", hex(&port));
            eprintln!("original {}", hex(&original));
            std::process::exit(1);
        }
        pair
    }

    /// Rows that differ in the number of sessions alone are of one family.
    pub fn family(&self) -> (&'static str, usize) {
        (self.name, self.objects)
    }

    /// How many times as long as the port the original took.
    pub fn ratio(&self) -> f64 {
        paired(&self.original, &self.port)
    }
}

/// The median of the ratios of samples that were taken in the same round: a slow phase of the machine strikes both.
pub fn paired(over: &[f64], under: &[f64]) -> f64 {
    let ratios: Vec<f64> = over.iter().zip(under).map(|(over, under)| over / under).collect();
    median(&ratios)
}

/// The first bytes, enough to see what differs.
fn hex(bytes: &[u8]) -> String {
    bytes.iter().take(64).map(|byte| format!("{byte:02x}")).collect()
}

/// The sample below which a part of them lies.
pub fn quantile(samples: &[f64], part: f64) -> f64 {
    let mut sorted = samples.to_vec();
    sorted.sort_by(f64::total_cmp);
    sorted[((sorted.len() - 1) as f64 * part).round() as usize]
}

pub fn median(samples: &[f64]) -> f64 {
    quantile(samples, 0.5)
}

#[cfg(test)]
mod tests {
    use super::*;

    #[test]
    fn a_quantile_is_one_of_the_samples() {
        let samples = [5.0, 1.0, 4.0, 2.0, 3.0];
        assert_eq!([0.0, 0.25, 0.5, 1.0].map(|part| quantile(&samples, part)), [1.0, 2.0, 3.0, 5.0]);
        assert_eq!(paired(&[4.0, 40.0, 9.0], &[2.0, 20.0, 3.0]), 2.0);
    }
}
