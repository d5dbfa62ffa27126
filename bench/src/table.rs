//! The figures as a table of text, as tab-separated lines and as Markdown.

use crate::row::{median, quantile, Row};

fn count(number: usize) -> String {
    if number == 0 {
        return "-".into();
    }
    number.to_string()
}

/// Half of the distance between the quarters, as a part of the median: how far off a sample lies as often as not.
pub fn spread(samples: &[f64]) -> f64 {
    (quantile(samples, 0.75) - quantile(samples, 0.25)) / 2.0 / median(samples)
}

/// Nanoseconds, with a decimal where it says something.
pub fn nanoseconds(time: f64) -> String {
    let whole = format!("{time:.0}");
    match whole.len() {
        ..=2 => format!("{time:.1}"),
        3 => whole,
        digits => format!("{},{}", &whole[..digits - 3], &whole[digits - 3..]),
    }
}

/// How many times, with as many decimals as tell it from 1.
pub fn ratio(times: f64) -> String {
    if times < 1.5 {
        return format!("{times:.2}");
    }
    format!("{times:.1}")
}

pub fn text(rows: &[Row]) -> String {
    let mut text = format!(
        "{:<42}{:>9}{:>8}{:>12}{:>6}{:>13}{:>6}{:>8}\n",
        "row", "sessions", "objects", "port ns", "+-%", "original ns", "+-%", "ratio"
    );
    for row in rows {
        text += &format!(
            "{:<42}{:>9}{:>8}{:>12.1}{:>6.0}{:>13.1}{:>6.0}{:>8.2}\n",
            row.name,
            count(row.sessions),
            count(row.objects),
            median(&row.port),
            100.0 * spread(&row.port),
            median(&row.original),
            100.0 * spread(&row.original),
            row.ratio()
        );
    }
    text
}

/// A line for each row: medians with the quarters round them, the ratio, and the number of samples.
pub fn tsv(rows: &[Row]) -> String {
    let mut text = String::from(
        "row\tsessions\tobjects\tport_ns\tport_q1\tport_q3\toriginal_ns\toriginal_q1\toriginal_q3\tratio\tsamples\n",
    );
    for row in rows {
        let quarters =
            |samples: &[f64]| [0.5, 0.25, 0.75].map(|part| format!("{:.2}", quantile(samples, part))).join("\t");
        let (port, original) = (quarters(&row.port), quarters(&row.original));
        let head = format!("{}\t{}\t{}", row.name, row.sessions, row.objects);
        text += &format!("{head}\t{port}\t{original}\t{:.3}\t{}\n", row.ratio(), row.port.len());
    }
    text
}

fn cell(row: &Row) -> String {
    format!("{} / {} ({})", nanoseconds(median(&row.port)), nanoseconds(median(&row.original)), ratio(row.ratio()))
}

/// A line for each family with a column for each number of sessions, and one table more for rows without sessions.
pub fn markdown(rows: &[Row]) -> String {
    let mut text = String::from(
        "| agent, ns: port / original (ratio) | objects | 1 session | 16 | 128 | 255 |\n|---|---|---|---|---|---|\n",
    );
    let families = || rows.chunk_by(|one, other| one.family() == other.family());
    for family in families().filter(|family| family.len() > 1) {
        let cells: Vec<String> = family.iter().map(cell).collect();
        text += &format!("| {} | {} | {} |\n", family[0].name, count(family[0].objects), cells.join(" | "));
    }
    text += "\n| ns | port | original | ratio |\n|---|---|---|---|\n";
    for row in families().filter(|family| family.len() == 1).flatten() {
        let (port, original) = (nanoseconds(median(&row.port)), nanoseconds(median(&row.original)));
        text += &format!("| {} | {port} | {original} | {} |\n", row.name, ratio(row.ratio()));
    }
    text
}

#[cfg(test)]
mod tests {
    use super::*;

    #[test]
    fn figures_have_the_decimals_that_say_something() {
        assert_eq!([1.66, 99.4, 99.6, 999.4, 1_785.2].map(nanoseconds), ["1.7", "99.4", "100", "999", "1,785"]);
        assert_eq!([0.042, 1.06, 7.04].map(ratio), ["0.04", "1.06", "7.0"]);
    }
}
