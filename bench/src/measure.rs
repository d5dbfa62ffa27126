//! The timing: batches of both sides in turn, several passes over all rows, each with agents made anew.

use crate::clock;
use crate::row::{Pair, Row};
use crate::timed::Timed;

/// How long is measured.
pub struct Plan {
    /// A batch takes at least so many nanoseconds.
    pub batch: u64,
    /// Batches of each side in a pass.
    pub rounds: usize,
    pub passes: usize,
}

pub const QUICK: Plan = Plan { batch: 2_000_000, rounds: 5, passes: 2 };
pub const FULL: Plan = Plan { batch: 4_000_000, rounds: 15, passes: 7 };

fn nanoseconds(side: &mut dyn Timed, turns: usize) -> u64 {
    let start = clock::nanoseconds();
    side.run(turns);
    clock::nanoseconds().saturating_sub(start).max(1)
}

/// How many turns fill a batch. Finding out warms caches and the predictor up.
pub fn turns(side: &mut dyn Timed, batch: u64) -> usize {
    let mut turns = 1;
    loop {
        let took = nanoseconds(side, turns);
        if took >= batch {
            return turns;
        }
        // A little more than needed, and never so much that one odd reading makes a batch endless.
        let wanted = turns as f64 * batch as f64 * 1.1 / took as f64;
        turns = (wanted as usize).clamp(turns + 1, turns * 16);
    }
}

/// A batch's nanoseconds a turn.
pub fn batch(side: &mut dyn Timed, turns: usize) -> f64 {
    nanoseconds(side, turns) as f64 / turns as f64
}

/// A row's two sides with the turns that fill a batch of each.
struct Ready {
    pair: Pair,
    of_port: usize,
    of_original: usize,
}

fn ready(row: &Row, plan: &Plan) -> Ready {
    let mut pair = row.pair();
    let of_port = turns(&mut *pair.port, plan.batch);
    let of_original = turns(&mut *pair.original, plan.batch);
    Ready { pair, of_port, of_original }
}

/// One pass over rows that are compared with each other: a round is a batch of each row and side, one behind the other.
fn pass(rows: &mut [Row], plan: &Plan) {
    let mut all: Vec<Ready> = rows.iter().map(|row| ready(row, plan)).collect();
    for _ in 0..plan.rounds {
        for (row, ready) in rows.iter_mut().zip(&mut all) {
            row.port.push(batch(&mut *ready.pair.port, ready.of_port));
            row.original.push(batch(&mut *ready.pair.original, ready.of_original));
        }
    }
}

/// Fills every row's samples. The agents are made anew in each pass, so no single layout of memory or of a hash decides.
pub fn measure(rows: &mut [Row], plan: &Plan) {
    for number in 1..=plan.passes {
        eprintln!("pass {number} of {}", plan.passes);
        rows.chunk_by_mut(|one, other| one.name == other.name).for_each(|kind| pass(kind, plan));
    }
}
