//! The plot: a line for each kind of row, port and original as dots on a logarithmic axis, and as bars from the least to
//! the greatest median over 1 to 255 sessions.

use crate::row::{median, Row};
use crate::table::ratio;

const LABELS: f64 = 356.0;
const AXIS: f64 = 520.0;
const RATIOS: f64 = 150.0;
const TOP: f64 = 92.0;
const LINE: f64 = 21.0;

const PORT: &str = "#1f6fb2";
const ORIGINAL: &str = "#d9772b";
const GREY: &str = "#5b6168";

/// Nanoseconds to places on the axis.
struct Axis {
    least: f64,
    greatest: f64,
}

impl Axis {
    /// From the power of ten below the least median to the one above the greatest.
    fn over(rows: &[Row]) -> Self {
        let all = || rows.iter().flat_map(|row| [median(&row.port), median(&row.original)]);
        let least = all().fold(f64::INFINITY, f64::min).log10().floor();
        let greatest = all().fold(1.0, f64::max).log10().ceil();
        Self { least, greatest }
    }

    fn place(&self, time: f64) -> f64 {
        LABELS + AXIS * (time.log10() - self.least) / (self.greatest - self.least)
    }
}

fn text(x: f64, y: f64, anchor: &str, fill: &str, words: &str) -> String {
    format!("<text x=\"{x:.1}\" y=\"{y:.1}\" text-anchor=\"{anchor}\" fill=\"{fill}\">{words}</text>\n")
}

fn rule(from: (f64, f64), to: (f64, f64), style: &str) -> String {
    format!("<line x1=\"{:.1}\" y1=\"{:.1}\" x2=\"{:.1}\" y2=\"{:.1}\" {style}/>\n", from.0, from.1, to.0, to.1)
}

/// A bar over the medians of a family, and a dot in their middle.
fn mark(axis: &Axis, medians: &[f64], y: f64, colour: &str) -> String {
    let least = axis.place(medians.iter().copied().fold(f64::INFINITY, f64::min));
    let greatest = axis.place(medians.iter().copied().fold(0.0, f64::max));
    let bar = format!("stroke=\"{colour}\" stroke-opacity=\"0.45\" stroke-width=\"6\" stroke-linecap=\"round\"");
    let dot = axis.place(median(medians));
    rule((least, y), (greatest, y), &bar)
        + &format!("<circle cx=\"{dot:.1}\" cy=\"{y:.1}\" r=\"4.5\" fill=\"{colour}\"/>\n")
}

fn label(row: &Row) -> String {
    match row.objects {
        0 => row.name.to_string(),
        1 => format!("{}, 1 object", row.name),
        objects => format!("{}, {objects} objects", row.name),
    }
}

fn line(axis: &Axis, family: &[Row], y: f64) -> String {
    let medians = |of: fn(&Row) -> &Vec<f64>| family.iter().map(|row| median(of(row))).collect::<Vec<f64>>();
    let (port, original) = (medians(|row| &row.port), medians(|row| &row.original));
    let least = family.iter().map(Row::ratio).fold(f64::INFINITY, f64::min);
    let greatest = family.iter().map(Row::ratio).fold(0.0, f64::max);
    let ratio = if family.len() > 1 { format!("{} to {}", ratio(least), ratio(greatest)) } else { ratio(least) };
    let between = rule((axis.place(median(&port)), y), (axis.place(median(&original)), y), "stroke=\"#c3c8ce\"");
    text(LABELS - 14.0, y + 4.0, "end", "#22262a", &label(&family[0]))
        + &between
        + &mark(axis, &original, y, ORIGINAL)
        + &mark(axis, &port, y, PORT)
        + &text(LABELS + AXIS + RATIOS - 12.0, y + 4.0, "end", "#22262a", &ratio)
}

/// A vertical rule for each power of ten, with its name.
fn decades(axis: &Axis, bottom: f64) -> String {
    let mut drawn = String::new();
    for power in axis.least as i32..=axis.greatest as i32 {
        let time = 10f64.powi(power);
        let x = axis.place(time);
        let name = if time < 1000.0 { format!("{time} ns") } else { format!("{} µs", time / 1000.0) };
        drawn += &rule((x, TOP - 14.0), (x, bottom), "stroke=\"#e3e6ea\"");
        drawn += &text(x, TOP - 22.0, "middle", GREY, &name);
        drawn += &text(x, bottom + 16.0, "middle", GREY, &name);
    }
    drawn
}

fn legend() -> String {
    let dot = |x: f64, colour: &str| format!("<circle cx=\"{x}\" cy=\"45\" r=\"4.5\" fill=\"{colour}\"/>\n");
    text(
        16.0,
        24.0,
        "start",
        "#22262a",
        "<tspan font-weight=\"600\" font-size=\"15\">Time for one of each, port and original</tspan>",
    ) + &dot(22.0, PORT)
        + &text(32.0, 49.0, "start", GREY, "port")
        + &dot(78.0, ORIGINAL)
        + &text(88.0, 49.0, "start", GREY, "original; a bar spans 1, 16, 128 and 255 sessions; logarithmic axis")
        + &text(LABELS + AXIS + RATIOS - 12.0, TOP - 22.0, "end", GREY, "times as fast")
}

pub fn svg(rows: &[Row]) -> String {
    let axis = Axis::over(rows);
    let families: Vec<&[Row]> = rows.chunk_by(|one, other| one.family() == other.family()).collect();
    let (width, bottom) = (LABELS + AXIS + RATIOS, TOP + LINE * families.len() as f64);
    let height = bottom + 28.0;
    let mut drawn = format!(
        "<svg xmlns=\"http://www.w3.org/2000/svg\" viewBox=\"0 0 {width} {height}\" \
         width=\"{width}\" height=\"{height}\" font-family=\"Helvetica, Arial, sans-serif\" font-size=\"12\">\n\
         <rect width=\"{width}\" height=\"{height}\" fill=\"#ffffff\"/>\n"
    );
    drawn += &legend();
    drawn += &decades(&axis, bottom);
    for (number, family) in families.iter().enumerate() {
        drawn += &line(&axis, family, TOP + LINE * (number as f64 + 0.5));
    }
    drawn + "</svg>\n"
}
