//! The part of docs/PERFORMANCE.md that a run writes: the machine, the goals with their reasons, and the tables.

use crate::goals::{place, verdicts, with_clock, Verdict};
use crate::machine;
use crate::reasons;
use crate::row::{median, quantile, Row};
use crate::table::{markdown, nanoseconds, ratio, spread};
use crate::yardsticks::Yardsticks;

const BEGIN: &str = "<!-- figures: begin; bench/run writes what stands between -->";
const END: &str = "<!-- figures: end -->";

/// A reason with the rows that it explains.
struct Reason {
    why: String,
    places: Vec<String>,
}

/// The reasons of a goal that isn't met: of each name the row that misses it most; those of the same reason together.
fn reasons(rows: &[Row], verdict: &Verdict, yard: &Yardsticks) -> Vec<Reason> {
    let mut told: Vec<&str> = Vec::new();
    let mut reasons: Vec<Reason> = Vec::new();
    for (times, row) in &verdict.missed {
        if told.contains(&row.name) {
            continue;
        }
        told.push(row.name);
        let why = if verdict.flat { reasons::grown(rows, row) } else { reasons::slow(rows, row, yard) };
        let place = format!("{} ({})", place(row), ratio(*times));
        match reasons.iter_mut().find(|reason| reason.why == why) {
            Some(reason) => reason.places.push(place),
            None => reasons.push(Reason { why, places: vec![place] }),
        }
    }
    reasons
}

fn goals(rows: &[Row], yard: &Yardsticks) -> String {
    let mut text = String::new();
    for verdict in verdicts(rows) {
        text += &format!("- {}.\n", verdict.line());
        for Reason { why, places } in reasons(rows, &verdict, yard) {
            text += &format!("  - {}: {why}.\n", places.join("; "));
        }
    }
    text + &format!("- {}.\n", with_clock(rows))
}

/// What single steps cost on this machine.
fn steps(yard: &Yardsticks) -> String {
    format!(
        "Single steps on this machine, in ns: the shortest call of the C interface {}, the clock read {}, a vector of \
         16 bytes made and freed {}, a number found in a `HashMap` {}, 64 KiB copied by the C library {}.\n",
        nanoseconds(yard.call),
        nanoseconds(yard.clock),
        nanoseconds(yard.allocation),
        nanoseconds(yard.lookup),
        nanoseconds(yard.copy)
    )
}

/// What the port has alone: how a search differs by place, the listing, repeats, messages in parts, and quiet hours.
fn alone(yard: &Yardsticks) -> String {
    yard.alone().join(".\n\n") + ".\n"
}

/// The machine, and how far the batches lie apart.
fn head(rows: &[Row]) -> String {
    let spreads: Vec<f64> = rows.iter().flat_map(|row| [spread(&row.port), spread(&row.original)]).collect();
    format!(
        "Measured on {}, {} cores, one of them used; the original built by {}. Each side of a row has {} batches; \
         half of them lie within {:.0} % of their median in the middle row, within {:.0} % in the worst.\n",
        machine::processor(),
        machine::cores(),
        machine::compiler(),
        rows.first().map_or(0, |row| row.port.len()),
        100.0 * median(&spreads),
        100.0 * quantile(&spreads, 1.0)
    )
}

/// What stands between the two marks.
pub fn section(rows: &[Row], yard: &Yardsticks) -> String {
    let plot = "![port and original, each kind of row](performance.svg)";
    [&head(rows), &goals(rows, yard), plot, "", &markdown(rows), &alone(yard), &steps(yard)].join("\n")
}

/// The document with the section put between its marks, or nothing if it doesn't have both.
pub fn put(document: &str, section: &str) -> Option<String> {
    let (before, rest) = document.split_once(BEGIN)?;
    let (_, after) = rest.split_once(END)?;
    Some(format!("{before}{BEGIN}\n\n{section}\n{END}{after}"))
}

#[cfg(test)]
mod tests {
    use super::*;

    #[test]
    fn only_what_stands_between_the_marks_is_replaced() {
        let document = format!("before\n{BEGIN}\nold\n{END}\nafter\n");
        let new = put(&document, "new").unwrap();
        assert_eq!(new, format!("before\n{BEGIN}\n\nnew\n{END}\nafter\n"));
        assert_eq!(put(&new, "new").unwrap(), new);
        assert_eq!(put("no marks", "new"), None);
    }
}
