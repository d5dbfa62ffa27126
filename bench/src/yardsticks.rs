//! What single steps cost on this machine, so that a row's time can be explained by what it consists of; and what the port
//! has alone.

use crate::agent_rows::{standing, Objects, FEW, MANY};
use crate::clock;
use crate::datagrams::{datagram, status_ok, write_data, PUBLISHER, READER, SUBSCRIBER, WRITER};
use crate::fragments::{all_of_many, one_of_many, BODY, TOTAL};
use crate::hours;
use crate::measure::{batch, turns, Plan};
use crate::port::{shortest_call, Port};
use crate::repeats::{read_and_acknowledge, repeat_all};
use crate::row::median;
use crate::table::nanoseconds;
use crate::timed::{Side, Timed};
use crate::works::Datagrams;
use std::collections::HashMap;
use std::hint::black_box;
use std::time::Instant;

pub struct Yardsticks {
    /// The shortest call across the C interface.
    pub call: f64,
    /// The machine's clock read once, by `Instant::now`.
    pub clock: f64,
    /// A vector of 16 bytes made and freed.
    pub allocation: f64,
    /// A number found in a `HashMap` of 128.
    pub lookup: f64,
    /// The C library's copy of 64 KiB.
    pub copy: f64,
    /// The port's listing of a session with few objects, and with many.
    pub few_listed: f64,
    pub many_listed: f64,
    /// The port's READ_DATA where its DATA is held, with the acknowledgement of the one before; and the repeat of 16.
    pub held: f64,
    pub repeated: f64,
    /// The port's FRAGMENT that is held, and a whole message of many.
    pub fragment: f64,
    pub message: f64,
    /// The port's WRITE_DATA to the object made last of one, to the last of many, and to the first of many.
    pub found: [f64; 3],
    /// The port's WRITE_DATA where every minute is open, in the last minute of eight windows, and in a closed one.
    pub writes: [f64; 3],
    /// The port's question for the first open minute: the given one, and one that is a week away.
    pub questions: [f64; 2],
}

impl Yardsticks {
    /// What the port has alone, a line each.
    pub fn alone(&self) -> [String; 5] {
        [self.search(), self.listing(), self.repeats(), self.parts(), self.hours()]
    }

    /// Quiet hours in a line.
    fn hours(&self) -> String {
        let ([open, eighth, closed], [here, around]) = (self.writes.map(nanoseconds), self.questions.map(nanoseconds));
        format!(
            "Quiet hours, seen in WRITE_DATA of 16 bytes: {open} ns where every minute is open, {eighth} ns in the last minute of eight \
             windows a day, {closed} ns in a closed minute, where no call is made; the first open minute: {here} ns where it is the given \
             one, {around} ns where it is a minute before it, and so sought round the week"
        )
    }

    /// Messages in parts in a line. The last FRAGMENT is what the whole takes beyond the others.
    fn parts(&self) -> String {
        let last = self.message - f64::from(TOTAL - 1) * self.fragment;
        format!(
            "A FRAGMENT of {BODY} bytes that is held: {} ns; the last of {TOTAL}, with which the message is put together, read and its \
             WRITE_DATA made: {} ns",
            nanoseconds(self.fragment),
            nanoseconds(last)
        )
    }

    /// The listing in a line.
    fn listing(&self) -> String {
        let (few, many) = (nanoseconds(self.few_listed), nanoseconds(self.many_listed));
        format!("The listing of a session, which the original doesn't have: {few} ns with {FEW} objects, {many} ns with {MANY}")
    }

    /// Holding and repeating in a line.
    fn repeats(&self) -> String {
        let (held, repeated) = (nanoseconds(self.held), nanoseconds(self.repeated));
        format!(
            "On a stream other than 0, READ_DATA of a sample of 16 bytes, whose DATA is held, with the ACKNACK of the one before: \
             {held} ns; an ACKNACK that repeats 16 such messages: {repeated} ns"
        )
    }

    /// What a search for an object number costs, in a line.
    fn search(&self) -> String {
        let [alone, last, first] = self.found.map(nanoseconds);
        format!(
            "The search for an object number, seen in WRITE_DATA of 16 bytes: to the object made last {alone} ns where it is \
             the only one and {last} ns where there are {MANY}, to the first of {MANY} {first} ns"
        )
    }
}

struct Step<F>(F);

impl<F: FnMut()> Timed for Step<F> {
    fn run(&mut self, turns: usize) {
        for _ in 0..turns {
            (self.0)();
        }
    }

    fn shown(&mut self) -> Vec<u8> {
        Vec::new()
    }
}

fn cost(plan: &Plan, step: impl FnMut()) -> f64 {
    let mut step = Step(step);
    let fill = turns(&mut step, plan.batch);
    let samples: Vec<f64> = (0..plan.rounds).map(|_| batch(&mut step, fill)).collect();
    median(&samples)
}

fn clock_cost(plan: &Plan) -> f64 {
    clock::use_machines(true);
    let cost = cost(plan, || {
        black_box(Instant::now());
    });
    clock::use_machines(false);
    cost
}

/// A listing of a session with objects of all kinds, once it is seen to be right.
fn listing_cost(plan: &Plan, count: u16) -> f64 {
    let objects = Objects { kinds: &[PUBLISHER, READER, SUBSCRIBER, WRITER], count };
    let (port, mut out): (Port, _) = (standing(1, Some(objects)), [0; MANY as usize]);
    let listed = port.list(1, &mut out);
    assert_eq!(out[..listed], objects.listing(), "the listing of {count} objects");
    cost(plan, || {
        black_box(port.list(black_box(1), black_box(&mut out)));
    })
}

/// WRITE_DATA to an object of a session with `count`, once it is seen to be found.
fn writing(count: u16, number: u16) -> Side<Port, Datagrams> {
    let port = standing(1, Some(Objects { kinds: &[WRITER], count }));
    let mut side = Side::new(port, Datagrams::new(1, 0, &[write_data(number, 16)]), false);
    assert!(side.shown().starts_with(&datagram(1, 0, &status_ok(number))), "object {number} of {count}");
    side
}

/// The three in turn, a batch of each, since what matters is how they differ.
fn in_turn(plan: &Plan, mut sides: [Side<Port, Datagrams>; 3]) -> [f64; 3] {
    let fills = sides.each_mut().map(|side| turns(side, plan.batch));
    let mut samples = [const { Vec::new() }; 3];
    for _ in 0..plan.passes * plan.rounds {
        for ((side, fill), samples) in sides.iter_mut().zip(fills).zip(&mut samples) {
            samples.push(batch(side, fill));
        }
    }
    samples.map(|samples| median(&samples))
}

pub fn yardsticks(plan: &Plan) -> Yardsticks {
    let (from, mut to) = (vec![1u8; 65536], vec![0u8; 65536]);
    let table: HashMap<u8, u64> = (1..=128).map(|id| (id, 0)).collect();
    Yardsticks {
        call: cost(plan, || {
            black_box(shortest_call(black_box(255)));
        }),
        clock: clock_cost(plan),
        allocation: cost(plan, || {
            black_box(black_box(&[1u8; 16]).to_vec());
        }),
        lookup: cost(plan, || {
            black_box(table.get(&black_box(7)));
        }),
        copy: cost(plan, || {
            black_box(&mut to).copy_from_slice(black_box(&from));
        }),
        few_listed: listing_cost(plan, FEW),
        many_listed: listing_cost(plan, MANY),
        held: cost(plan, read_and_acknowledge()),
        repeated: cost(plan, repeat_all()),
        fragment: cost(plan, one_of_many()),
        message: cost(plan, all_of_many()),
        found: in_turn(plan, [writing(1, 1), writing(MANY, MANY), writing(MANY, 1)]),
        writes: in_turn(plan, hours::writes()),
        questions: hours::questions().map(|question| cost(plan, question)),
    }
}
