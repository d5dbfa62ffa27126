//! Times the port and the published Rust side by side, and writes the table, the figures, the plot and the report.

mod agent_rows;
mod agents;
mod clock;
mod datagrams;
mod fragments;
mod goals;
mod hours;
mod interface;
mod machine;
mod measure;
mod original;
mod plot;
mod port;
mod reasons;
mod repeats;
mod report;
mod row;
mod table;
mod timed;
mod wire;
mod wire_original;
mod wire_port;
mod wire_rows;
mod works;
mod yardsticks;

use row::Row;
use std::io::{Error, Result};
use yardsticks::Yardsticks;

// Seen from bench/, where bench/run starts it.
const FIGURES: &str = "../target/bench/figures.tsv";
const PLOT: &str = "../docs/performance.svg";
const REPORT: &str = "../docs/PERFORMANCE.md";

fn main() -> Result<()> {
    let quick = match std::env::args().skip(1).collect::<Vec<String>>().as_slice() {
        [] => false,
        [argument] if argument == "--quick" => true,
        _ => return Err(Error::other("use: bench/run [--quick]")),
    };
    let plan = if quick { &measure::QUICK } else { &measure::FULL };
    machine::pin();
    let mut rows = agent_rows::rows();
    rows.extend(wire_rows::rows());
    measure::measure(&mut rows, plan);
    let yard = yardsticks::yardsticks(plan);
    print!("{}\n{}", table::text(&rows), lines(&rows));
    yard.alone().iter().for_each(|line| println!("{line}"));
    std::fs::create_dir_all("../target/bench")?;
    std::fs::write(FIGURES, table::tsv(&rows))?;
    // A quick run's figures are rough, and the document keeps those of the last full one.
    if quick {
        return Ok(());
    }
    publish(&rows, &yard)
}

/// The goals, a line each, and what the clock does to them.
fn lines(rows: &[Row]) -> String {
    let verdicts = goals::verdicts(rows);
    let lines = verdicts.iter().map(|verdict| verdict.line()).chain([goals::with_clock(rows)]);
    lines.map(|line| line + "\n").collect()
}

fn publish(rows: &[Row], yard: &Yardsticks) -> Result<()> {
    let document = std::fs::read_to_string(REPORT)?;
    let new = report::put(&document, &report::section(rows, yard));
    std::fs::write(REPORT, new.ok_or_else(|| Error::other("docs/PERFORMANCE.md has lost its marks"))?)?;
    std::fs::write(PLOT, plot::svg(rows))
}
