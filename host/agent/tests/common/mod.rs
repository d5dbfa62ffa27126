//! What a host lends, as the tests lend it: every call is checked for what it may not change.
#![allow(dead_code)]

use wire::Datagram;
use xrce_agent::lent::{self, AgentRecord, Lent, Tables, Told};
use xrce_agent::{Given, Window, ALL_WEEK};

pub const FILL: u8 = 0xA5;
pub const FILL_NUMBER: u16 = 0xA5A5;

/// Inputs of `process` (enum xrce_input).
pub const CREATED: u8 = 1;
pub const DONE: u8 = 2;
pub const SAMPLE: u8 = 3;
pub const NO_SAMPLE: u8 = 4;
pub const FAILED: u8 = 5;

/// Calls (enum xrce_call).
pub const CREATE_PARTICIPANT: u64 = 1;
pub const CREATE_TOPIC: u64 = 2;
pub const CREATE_WRITER: u64 = 3;
pub const CREATE_READER: u64 = 4;
pub const WRITE_DATA: u64 = 5;
pub const READ_DATA: u64 = 6;
pub const DELETE_ENTITY: u64 = 7;

/// For how many clients a fixture has stores of held messages and of fragments.
pub const CLIENTS: u64 = 4;

/// How many records of the agent, rows and records of each table, bytes and lengths of the stores, rebuilt bytes and minutes of
/// the week are lent.
#[derive(Clone, Copy)]
pub struct Short {
    pub agents: usize,
    pub sessions: usize,
    pub streams: usize,
    pub objects: usize,
    pub held: usize,
    pub parts: usize,
    pub lengths: usize,
    pub rebuilt: usize,
    pub hours: usize,
}

pub const WHOLE: Short = Short {
    agents: 1,
    sessions: lent::SESSIONS,
    streams: lent::STREAMS,
    objects: lent::OBJECTS,
    held: lent::HELD * CLIENTS as usize,
    parts: lent::PARTS * CLIENTS as usize,
    lengths: lent::LENGTHS * CLIENTS as usize,
    rebuilt: lent::REBUILT,
    hours: lent::HOURS,
};

/// The stores for that many clients.
pub fn for_clients(max: u64) -> Short {
    let max = max as usize;
    Short { held: lent::HELD * max, parts: lent::PARTS * max, lengths: lent::LENGTHS * max, ..WHOLE }
}

#[derive(Clone, Debug, PartialEq, Eq)]
pub struct Fixture {
    pub record: AgentRecord,
    pub tables: Tables,
    pub out: Vec<u8>,
    pub kept: Vec<u8>,
}

impl Fixture {
    /// Nothing set up: zeroes.
    pub fn empty() -> Self {
        Fixture { record: AgentRecord::default(), tables: Tables::new(CLIENTS), out: vec![FILL; 256], kept: Vec::new() }
    }

    /// An agent for four clients that expire after 1,000 ms.
    pub fn new() -> Self {
        let mut fixture = Fixture::empty();
        assert_eq!(fixture.setup(WHOLE, CLIENTS, 1000), 0);
        fixture
    }

    /// Session 1 with participant 1 (handle 11), topic 2 (12), writer 3 (13) and reader 4 (14).
    pub fn with_objects() -> Self {
        let mut fixture = Fixture::new();
        fixture.opens();
        fixture.fills(1);
        fixture
    }

    /// The same four objects in that session.
    pub fn fills(&mut self, session: u8) {
        for (object, kind, parent) in [(1, 1, 0), (2, 2, 1), (3, 5, 2), (4, 6, 2)] {
            self.creates_in(session, object, kind, parent);
        }
    }

    /// CREATE in session 1, with a bridge call: the handle is 10 more than the number.
    pub fn creates(&mut self, object: u16, kind: u8, parent: u16) {
        self.creates_in(1, object, kind, parent);
    }

    /// The same in that session.
    pub fn creates_in(&mut self, session: u8, object: u16, kind: u8, parent: u16) {
        let datagram = Datagram::new(session, 0).create(object, kind, parent, &wire::strings(b"n", b"t")).bytes();
        assert_eq!(self.datagram(&datagram), 0);
        assert_eq!(self.answer(CREATED, 10 + u32::from(object), &[]), 0);
        assert_eq!(self.replied(), status(session, object, 0));
    }

    pub fn opens(&mut self) {
        assert_eq!(self.datagram(&Datagram::new(0, 0).create_client([1, 2, 3, 4]).bytes()), 0);
        assert_eq!(self.replied().len(), 11);
    }

    pub fn lend(&mut self, short: Short) -> (&mut [AgentRecord], Lent<'_>, &mut [u8]) {
        let tables = Lent {
            sessions: &mut self.tables.sessions[..short.sessions],
            streams: &mut self.tables.streams[..short.streams],
            objects: &mut self.tables.objects[..short.objects],
            held: &mut self.tables.held[..short.held],
            parts: &mut self.tables.parts[..short.parts],
            lengths: &mut self.tables.lengths[..short.lengths],
            rebuilt: &mut self.tables.rebuilt[..short.rebuilt],
            hours: &mut self.tables.hours[..short.hours],
        };
        (&mut self.record.lend_mut()[..short.agents], tables, &mut self.out)
    }

    /// Without quiet hours.
    pub fn setup(&mut self, short: Short, max_clients: u64, timeout_ms: u64) -> u64 {
        self.setup_windows(short, &ALL_WEEK, max_clients, timeout_ms)
    }

    pub fn setup_windows(&mut self, short: Short, windows: &[Window], max_clients: u64, timeout_ms: u64) -> u64 {
        self.refused_changes_nothing(|fixture| {
            let (record, tables, _) = fixture.lend(short);
            lent::setup(record, tables, windows, max_clients, timeout_ms)
        })
    }

    pub fn process(&mut self, short: Short, told: Told<'_>) -> u64 {
        self.out.fill(FILL);
        let hours = self.tables.hours.clone();
        let answer = self.refused_changes_nothing(|fixture| {
            let (record, tables, out) = fixture.lend(short);
            lent::process(record, tables, out, told)
        });
        assert!(self.tables.hours == hours, "a datagram or an answer changed the week's minutes");
        let wrote = if answer == 0 { self.record.wrote as usize } else { 0 };
        assert!(self.out[wrote..].iter().all(|byte| *byte == FILL), "bytes behind the replies changed");
        if answer == 0 {
            self.kept = told.datagram.to_vec();
        }
        answer
    }

    /// A datagram at 100 ms, in the first minute of the week.
    pub fn datagram(&mut self, datagram: &[u8]) -> u64 {
        self.datagram_in(datagram, 0, 0)
    }

    /// One in that minute.
    pub fn datagram_in(&mut self, datagram: &[u8], day: u8, minute: u16) -> u64 {
        self.process(WHOLE, Told { datagram, given: Given { time_ms: 100, day, minute }, ..Told::default() })
    }

    /// An answer, with the open call's datagram lent again.
    pub fn answer(&mut self, input: u8, handle: u32, sample: &[u8]) -> u64 {
        self.answer_given(WHOLE, Given::default(), input, handle, sample)
    }

    /// The same with a time, weekday and minute, at which nobody looks.
    pub fn answer_given(&mut self, short: Short, given: Given, input: u8, handle: u32, sample: &[u8]) -> u64 {
        let datagram = self.kept.clone();
        self.process(short, Told { input, handle, sample, datagram: &datagram, given })
    }

    pub fn remove(&mut self, short: Short, id: u8) -> u64 {
        self.refused_changes_nothing(|fixture| {
            let (record, tables, _) = fixture.lend(short);
            lent::remove(record, tables.sessions, id)
        })
    }

    pub fn sweep(&mut self, short: Short, room: usize, time: u64) -> u64 {
        self.out.fill(FILL);
        self.refused_changes_nothing(|fixture| {
            let (record, tables, out) = fixture.lend(short);
            lent::sweep(record, tables.sessions, &mut out[..room], time)
        })
    }

    /// The listing of a session, or the refusal, with an output of that many numbers.
    pub fn list(&mut self, short: Short, room: usize, id: u8) -> Result<Vec<u16>, u64> {
        let before = self.clone();
        let mut out = vec![FILL_NUMBER; room];
        let (_, tables, _) = self.lend(short);
        let answer = lent::list(tables.sessions, tables.objects, &mut out, id);
        assert!(*self == before, "a listing changed something");
        let listed = if answer.is_multiple_of(256) { answer as usize / 65_536 } else { 0 };
        assert!(out[listed..].iter().all(|number| *number == FILL_NUMBER), "numbers behind the listing changed");
        out.truncate(listed);
        if answer.is_multiple_of(256) {
            Ok(out)
        } else {
            Err(answer)
        }
    }

    /// The first open minute at or after one, or the refusal.
    pub fn first_open(&mut self, short: Short, day: u8, minute: u16) -> Result<Option<(u64, u64)>, u64> {
        let before = self.clone();
        let (_, tables, _) = self.lend(short);
        let answer = lent::first_open(tables.hours, day, minute);
        assert!(*self == before, "a question changed something");
        if !answer.is_multiple_of(256) {
            return Err(answer);
        }
        Ok((answer / 65_536).checked_sub(1).map(|place| (place / 1440, place % 1440)))
    }

    // "a refused call changes no byte of what was lent to it"
    fn refused_changes_nothing(&mut self, call: impl FnOnce(&mut Self) -> u64) -> u64 {
        let before = self.clone();
        let answer = call(self);
        if !answer.is_multiple_of(256) {
            assert!(*self == before, "a call refused as {} changed something", answer % 256);
        }
        answer
    }

    pub fn replied(&self) -> &[u8] {
        &self.out[..self.record.wrote as usize]
    }
}

/// A STATUS reply on stream 0.
pub fn status(session: u8, object: u16, code: u8) -> Vec<u8> {
    Datagram::new(session, 0).status(object, code).bytes()
}
