//! The goals, and whether this run met them: one line for each, with the row that comes out worst.

use crate::row::{median, paired, Goal, Row};
use crate::table::{nanoseconds, ratio};

/// A datagram of the port takes at most this part of the original's time, and so does parsing.
const DATAGRAM: f64 = 5.0;
const PARSING: f64 = 4.0;
const NO_SLOWER: f64 = 1.0;
/// What counts as flat: at no number of sessions more than a quarter slower than at one.
const FLAT: f64 = 1.25;

/// A goal's verdict.
pub struct Verdict<'a> {
    pub goal: &'static str,
    /// Whether it is asked for that sessions add nothing, and not for a multiple of the original's speed.
    pub flat: bool,
    /// How many rows it asks something of, and which of them miss it by which ratio, the worst first.
    asked: usize,
    pub missed: Vec<(f64, &'a Row)>,
    worst: String,
}

impl Verdict<'_> {
    pub fn line(&self) -> String {
        let how = match self.missed.len() {
            0 => "met".to_string(),
            missed => format!("not met in {missed} of {} rows", self.asked),
        };
        format!("{}: {how}; the worst is {}", self.goal, self.worst)
    }
}

/// A row's name with its sessions and objects.
pub fn place(row: &Row) -> String {
    let mut place = row.name.to_string();
    if row.sessions > 0 {
        place += &format!(" at {} session{}", row.sessions, if row.sessions == 1 { "" } else { "s" });
    }
    if row.objects > 0 {
        place += &format!(", {} object{}", row.objects, if row.objects == 1 { "" } else { "s" });
    }
    place
}

fn at_least<'a>(goal: &'static str, least: f64, rows: impl Iterator<Item = &'a Row>) -> Verdict<'a> {
    let mut sorted: Vec<(f64, &Row)> = rows.map(|row| (row.ratio(), row)).collect();
    sorted.sort_by(|one, other| one.0.total_cmp(&other.0));
    let worst = sorted.first().map_or(String::new(), |(times, row)| {
        let (port, original) = (nanoseconds(median(&row.port)), nanoseconds(median(&row.original)));
        format!("{}, {} times ({port} ns beside {original} ns)", place(row), ratio(*times))
    });
    let asked = sorted.len();
    sorted.retain(|(times, _)| *times < least);
    Verdict { goal, flat: false, asked, missed: sorted, worst }
}

/// How many times as long a row of the port takes as the row of its family with one session.
fn growth(rows: &[Row], row: &Row) -> f64 {
    let one = rows.iter().find(|other| other.family() == row.family() && other.sessions == 1);
    one.map_or(1.0, |one| paired(&row.port, &one.port))
}

fn flat<'a>(goal: &'static str, most: f64, rows: &'a [Row]) -> Verdict<'a> {
    let several = rows.iter().filter(|row| is_datagram(row) && row.sessions > 1);
    let mut sorted: Vec<(f64, &Row)> = several.map(|row| (growth(rows, row), row)).collect();
    sorted.sort_by(|one, other| other.0.total_cmp(&one.0));
    let worst = sorted.first().map_or(String::new(), |(times, row)| {
        format!("{}, {} times its time at one session", place(row), ratio(*times))
    });
    let asked = sorted.len();
    sorted.retain(|(times, _)| *times > most);
    Verdict { goal, flat: true, asked, missed: sorted, worst }
}

fn is_datagram(row: &Row) -> bool {
    matches!(row.goal, Goal::Datagram | Goal::Datagrams(_))
}

pub fn verdicts(rows: &[Row]) -> Vec<Verdict<'_>> {
    let datagrams = rows.iter().filter(|row| is_datagram(row));
    let parsing = rows.iter().filter(|row| row.goal == Goal::Parsing);
    vec![
        at_least("A datagram at least 5 times as fast as the original", DATAGRAM, datagrams),
        at_least("Parsing at least 4 times as fast", PARSING, parsing),
        at_least("Nothing slower than the original", NO_SLOWER, rows.iter()),
        flat("A datagram takes as long at 16, 128 and 255 sessions as at 1 (up to a quarter more)", FLAT, rows),
    ]
}

/// How the rows with the clock read come out: no goal is set for them.
pub fn with_clock(rows: &[Row]) -> String {
    let clocked = rows.iter().filter(|row| row.goal == Goal::Clock);
    let told: Vec<String> = clocked.map(|row| format!("{} {} times", row.name, ratio(row.ratio()))).collect();
    format!("With the machine's clock on both sides: {}", told.join("; "))
}
