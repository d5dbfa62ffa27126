//! The rows of the agent: each kind of datagram at 1, 16, 128 and 255 sessions, with few objects and with many.

use crate::agents::Agent;
use crate::datagrams::*;
use crate::original::Original;
use crate::port::Port;
use crate::row::{Goal, Pair, Row};
use crate::timed::Side;
use crate::works::{Datagrams, Ending, Opening, Sweep, Work, LATER};

const SESSIONS: [usize; 4] = [1, 16, 128, 255];

/// The objects of a session: as few as a writer or reader can stand with, and as many as there may be.
pub const FEW: u16 = 3;
pub const MANY: u16 = 32;

/// The stream of HEARTBEAT and ACKNACK, a reliable one.
const RELIABLE: u8 = 1;

/// The objects that stand in each session, numbered from 1 in the order in which they are made: a Participant, its Topic,
/// and objects of these kinds in turn that name the Topic. The first two stay, since the others depend on them.
#[derive(Clone, Copy)]
pub struct Objects {
    pub kinds: &'static [u8],
    pub count: u16,
}

impl Objects {
    /// The kind and the parent of an object.
    fn made(self, number: u16) -> (u8, u16) {
        match number {
            1 => (PARTICIPANT, 0),
            2 => (TOPIC, 1),
            _ => (self.kinds[usize::from(number) % self.kinds.len()], 2),
        }
    }

    /// Their numbers as the listing has them.
    pub fn listing(self) -> Vec<u16> {
        let mut numbers: Vec<u16> = (1..=self.count).collect();
        numbers.sort_by_key(|number| std::cmp::Reverse(self.made(*number).0));
        numbers
    }
}

/// Hands in a datagram about an object of session `id`, which must be answered by STATUS OK and nothing else: a row's two
/// sides would else stand differently, and what they do would still look alike.
fn accepted<A: Agent>(agent: &mut A, id: u8, object: u16, submessage: &[u8]) {
    let mut replies: Vec<u8> = Vec::new();
    agent.deliver(&datagram(id, 0, submessage), &mut |reply| replies.extend(reply));
    assert_eq!(replies, datagram(id, 0, &status_ok(object)), "object {object} of session {id} in a row's set-up");
}

/// An agent with that many sessions, last active `LATER`, and these objects in each.
pub fn standing<A: Agent>(sessions: usize, objects: Option<Objects>) -> A {
    standing_in(A::new(), sessions, objects)
}

/// The same in an agent that is there.
pub fn standing_in<A: Agent>(mut agent: A, sessions: usize, objects: Option<Objects>) -> A {
    agent.set_time(LATER);
    for id in 1..=sessions as u8 {
        accepted(&mut agent, id, 0, &create_client());
        let made = objects.iter().flat_map(|objects| (1..=objects.count).map(|number| (number, objects.made(number))));
        for (number, (kind, parent)) in made {
            accepted(&mut agent, id, number, &create(number, kind, parent));
        }
    }
    agent
}

/// A row whose standing sessions and whose work are made by these.
fn row<W: Work + 'static>(
    name: &'static str,
    goal: Goal,
    (sessions, objects): (usize, usize),
    stand: (usize, Option<Objects>),
    work: impl Fn() -> W + 'static,
) -> Row {
    let reads_clock = goal == Goal::Clock;
    let make = move || Pair {
        port: Box::new(Side::new(standing::<Port>(stand.0, stand.1), work(), reads_clock)),
        original: Box::new(Side::new(standing::<Original>(stand.0, stand.1), work(), reads_clock)),
    };
    Row::new(name, goal, sessions, objects, make)
}

/// A row of one or two datagrams that go round the sessions.
fn datagrams(name: &'static str, sessions: usize, objects: Objects, stream: u8, submessages: Vec<Vec<u8>>) -> Row {
    let shape = (sessions, objects.count as usize);
    let work = move || Datagrams::new(sessions, stream, &submessages);
    row(name, Goal::Datagram, shape, (sessions, Some(objects)), work)
}

/// Datagrams that look for an object: the one made last, which the port's search meets first; or one that there isn't.
fn with_objects(sessions: usize, count: u16) -> Vec<Row> {
    let (writers, readers) = (Objects { kinds: &[WRITER], count }, Objects { kinds: &[READER], count });
    let one = |name, objects: Objects, submessage| datagrams(name, sessions, objects, 0, vec![submessage]);
    vec![
        one("WRITE_DATA, 16 bytes", writers, write_data(count, 16)),
        one("WRITE_DATA, 1,024 bytes", writers, write_data(count, 1024)),
        one("READ_DATA, sample of 16 bytes", readers, read_data(count)),
        one("DELETE of an unknown object", writers, delete(999)),
    ]
}

/// The object made is the last of `count`. Nothing depends on it, so it can be deleted, and the session stays as it was.
fn created_and_deleted(name: &'static str, sessions: usize, count: u16, created: Vec<u8>) -> Row {
    let before = Objects { kinds: &[WRITER], count: count - 1 };
    let work = move || Datagrams::new(sessions, 0, &[created.clone(), delete(count)]);
    row(name, Goal::Datagrams(2), (sessions, usize::from(count)), (sessions, Some(before)), work)
}

fn creating(sessions: usize, count: u16) -> Vec<Row> {
    let objects = Objects { kinds: &[WRITER], count };
    let writer = create(count, WRITER, 2);
    let pair = |name, created| created_and_deleted(name, sessions, count, created);
    vec![
        datagrams("CREATE of a DataWriter in place of one", sessions, objects, 0, vec![writer.clone()]),
        pair("CREATE of a DataWriter, and DELETE", writer),
        pair("CREATE of a Topic, and DELETE", create(count, TOPIC, 1)),
    ]
}

/// Topics whose name and type are that long each: every byte of them is looked at.
fn naming(sessions: usize) -> Vec<Row> {
    let topic = |name, len| {
        let text = letters(len);
        created_and_deleted(name, sessions, FEW, create_topic(FEW, 1, &text, &text))
    };
    vec![topic("CREATE of a Topic, 16-byte names, DELETE", 16), topic("CREATE of a Topic, 255-byte names, DELETE", 255)]
}

fn streams(sessions: usize) -> Vec<Row> {
    let objects = Objects { kinds: &[WRITER], count: FEW };
    let one = |name, submessage| datagrams(name, sessions, objects, RELIABLE, vec![submessage]);
    vec![one("HEARTBEAT", heartbeat(0, 5)), one("ACKNACK", acknack(0, 3))]
}

/// The session that is opened counts among those that are live.
fn sessions(live: usize) -> Vec<Row> {
    let opening = |name, ending: fn() -> Ending| {
        row(name, Goal::NoSlower, (live, 0), (live - 1, None), move || Opening::new(ending()))
    };
    vec![
        opening("CREATE_CLIENT and removal", || Ending::Removal),
        opening("CREATE_CLIENT and the sweep that ends it", || Ending::Sweep),
        row("sweep that finds none", Goal::NoSlower, (live, 0), (live, None), || Sweep),
    ]
}

/// The same as above with the machine's clock read for each datagram, on both sides.
fn clocked() -> Vec<Row> {
    let objects = Objects { kinds: &[WRITER], count: FEW };
    let one = |name, stream, submessage: Vec<u8>| {
        let work = move || Datagrams::new(1, stream, std::slice::from_ref(&submessage));
        row(name, Goal::Clock, (1, usize::from(FEW)), (1, Some(objects)), work)
    };
    vec![
        one("WRITE_DATA, 16 bytes, clock read", 0, write_data(FEW, 16)),
        one("HEARTBEAT, clock read", RELIABLE, heartbeat(0, 5)),
    ]
}

pub fn rows() -> Vec<Row> {
    let mut rows = Vec::new();
    for live in SESSIONS {
        for count in [FEW, MANY] {
            rows.extend(with_objects(live, count));
            rows.extend(creating(live, count));
        }
        rows.extend(naming(live));
        rows.extend(streams(live));
        rows.extend(sessions(live));
    }
    rows.extend(clocked());
    // The rows of one name together, in the order in which the names first came.
    let names: Vec<&str> = rows.iter().map(|row| row.name).collect();
    rows.sort_by_key(|row| (names.iter().position(|name| *name == row.name), row.objects, row.sessions));
    rows
}
