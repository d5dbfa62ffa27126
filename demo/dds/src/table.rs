//! Two columns beside the steps.

use crate::steps::Column;

fn row(mark: &str, step: &str, first: &str, second: &str) -> String {
    format!("{mark:<3}{step:<38} {first:<28} {second}").trim_end().to_string() + "\n"
}

pub fn side_by_side(first: &Column, second: &Column) -> String {
    let head = row("", "step", "the original", "this port");
    let one = |((is_point, step, first), (_, _, second)): (&(bool, &str, String), &(bool, &str, String))| {
        row(if *is_point { "=>" } else { "" }, step, first, second)
    };
    head + &first.rows.iter().zip(&second.rows).map(one).collect::<String>()
}
