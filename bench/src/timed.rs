//! One side of a row: the port or the original with its work, ready to be timed and to show its bytes.

use crate::agents::Agent;
use crate::clock;
use crate::works::Work;
use std::hint::black_box;

pub trait Timed {
    /// Does the work that often, and nothing else.
    fn run(&mut self, turns: usize);

    /// Does every different turn twice, and shows all that came out.
    fn shown(&mut self) -> Vec<u8>;
}

pub struct Side<A, W> {
    pub agent: A,
    pub work: W,
    pub reads_clock: bool,
    turn: usize,
}

impl<A: Agent, W: Work> Side<A, W> {
    pub fn new(agent: A, work: W, reads_clock: bool) -> Self {
        Self { agent, work, reads_clock, turn: 0 }
    }

    fn next(&mut self, sent: &mut impl FnMut(&[u8])) {
        self.work.turn(&mut self.agent, self.turn, sent);
        self.turn += 1;
        if self.turn == self.work.rounds() {
            self.turn = 0;
        }
    }
}

impl<A: Agent, W: Work> Timed for Side<A, W> {
    fn run(&mut self, turns: usize) {
        if self.reads_clock {
            self.agent.read_clock();
        }
        for _ in 0..turns {
            self.next(&mut |bytes| {
                black_box(bytes);
            });
        }
        clock::use_machines(false);
    }

    fn shown(&mut self) -> Vec<u8> {
        let mut all = Vec::new();
        for _ in 0..2 * self.work.rounds() {
            self.next(&mut |bytes| all.extend(bytes));
        }
        all.extend(self.agent.handles().to_le_bytes());
        all
    }
}
