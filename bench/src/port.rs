//! The port's agent, and the host that lends it tables and answers its bridge calls.

use crate::agents::{Agent, SAMPLE, TIMEOUT};
use crate::clock;
use crate::interface::*;
use std::hint::black_box;
use std::time::Instant;

/// Room for every reply of a row, and for all that an ACKNACK may ask for: with less, the port counts its replies first.
const ROOM: usize = 65536;

/// For how many clients an agent is set up.
const CLIENTS: usize = 255;

/// Tables of the documented need.
struct Tables {
    sessions: [SessionRow; SESSIONS],
    streams: [StreamRow; STREAMS],
    objects: [Object; OBJECTS],
}

/// The shortest call of the interface: what it costs to go there and back.
pub fn shortest_call(max_clients: u64) -> u64 {
    // SAFETY: it takes a number and gives one.
    unsafe { xrce_need(max_clients) }
}

pub struct Port {
    agent: AgentRecord,
    tables: Box<Tables>,
    /// The stores of held messages and of fragments. No row of both sides holds one, so their pages stay untouched there, and no time
    /// is spent on them.
    held: Box<[u8]>,
    parts: Box<[u8]>,
    lengths: Box<[u32]>,
    rebuilt: Box<[u8]>,
    hours: Box<[u8]>,
    out: Box<[u8; ROOM]>,
    time: u64,
    /// The weekday and minute of each datagram.
    minute: (u8, u16),
    /// Where the host reads the machine's clock for each datagram: since when.
    reads_clock: Option<Instant>,
    handles: u32,
}

impl Port {
    fn process(&mut self, datagram: &[u8], sample: &[u8], input: u8, time: u64, handle: u32) {
        // SAFETY: each pointer comes with the length of its slice (the record's is 1), and those that are written share
        // no byte.
        let answer = unsafe {
            xrce_agent_process(
                &mut self.agent,
                1,
                self.tables.sessions.as_mut_ptr(),
                SESSIONS,
                self.tables.streams.as_mut_ptr(),
                STREAMS,
                self.tables.objects.as_mut_ptr(),
                OBJECTS,
                self.held.as_mut_ptr(),
                self.held.len(),
                self.parts.as_mut_ptr(),
                self.parts.len(),
                self.lengths.as_mut_ptr(),
                self.lengths.len(),
                self.rebuilt.as_mut_ptr(),
                self.rebuilt.len(),
                self.hours.as_ptr(),
                self.hours.len(),
                self.out.as_mut_ptr(),
                ROOM,
                datagram.as_ptr(),
                datagram.len(),
                sample.as_ptr(),
                sample.len(),
                input,
                time,
                self.minute.0,
                self.minute.1,
                handle,
            )
        };
        number(answer);
    }

    /// The least bridge's answer to the open call: the input that tells it, the handle if it made an entity, and the
    /// sample if it read one.
    fn bridge(&mut self, datagram: &[u8]) -> (u8, u32, &'static [u8]) {
        match self.agent.call {
            WRITE_DATA => {
                let shown = if self.agent.left_end == 0 { datagram } else { &self.rebuilt };
                let start = self.agent.start as usize;
                black_box(&shown[start..start + self.agent.len as usize]);
                (DONE, 0, &[])
            }
            DELETE_ENTITY => (DONE, 0, &[]),
            READ_DATA => (SAMPLED, 0, &SAMPLE),
            _ => {
                self.handles += 1;
                (CREATED, self.handles, &[])
            }
        }
    }

    /// The listing of a session, which the original doesn't have, at the start of `out`; how many objects it has.
    pub fn list(&self, id: u8, out: &mut [u16]) -> usize {
        let (sessions, rows) = (self.tables.sessions.as_ptr(), SESSIONS);
        let (objects, records) = (self.tables.objects.as_ptr(), OBJECTS);
        // SAFETY: as in `process`; the tables are read alone.
        number(unsafe { xrce_agent_list(sessions, rows, objects, records, out.as_mut_ptr(), out.len(), id) })
    }

    /// From here on datagrams come in that minute.
    pub fn set_minute(&mut self, day: u8, minute: u16) {
        self.minute = (day, minute);
    }

    /// The number that answers the question for the first open minute.
    pub fn first_open(&self, day: u8, minute: u16) -> usize {
        // SAFETY: as in `process`; the week's minutes are read alone.
        number(unsafe { xrce_agent_first_open(self.hours.as_ptr(), self.hours.len(), day, minute) })
    }

    fn replied(&self) -> &[u8] {
        &self.out[..self.agent.wrote as usize]
    }

    fn set_up(&mut self, windows: &[Window]) {
        // SAFETY: as in `process`.
        let answer = unsafe {
            xrce_agent_setup(
                &mut self.agent,
                1,
                self.tables.sessions.as_mut_ptr(),
                SESSIONS,
                self.tables.streams.as_mut_ptr(),
                STREAMS,
                self.tables.objects.as_mut_ptr(),
                OBJECTS,
                self.held.as_ptr(),
                self.held.len(),
                self.parts.as_ptr(),
                self.parts.len(),
                self.lengths.as_ptr(),
                self.lengths.len(),
                self.rebuilt.as_ptr(),
                self.rebuilt.len(),
                self.hours.as_mut_ptr(),
                self.hours.len(),
                windows.as_ptr(),
                windows.len(),
                CLIENTS as u64,
                TIMEOUT,
            )
        };
        number(answer);
    }

    /// An agent without sessions that is open in these windows. Datagrams come in the middle of the week.
    pub fn within(windows: &[Window]) -> Self {
        let mut port = Self {
            agent: AgentRecord::default(),
            tables: Box::new(Tables {
                sessions: [[0; 8]; SESSIONS],
                streams: [[0; 35]; STREAMS],
                objects: [Object::default(); OBJECTS],
            }),
            held: vec![0; HELD * CLIENTS].into_boxed_slice(),
            parts: vec![0; PARTS * CLIENTS].into_boxed_slice(),
            lengths: vec![0; LENGTHS * CLIENTS].into_boxed_slice(),
            rebuilt: vec![0; REBUILT].into_boxed_slice(),
            hours: vec![0; HOURS].into_boxed_slice(),
            out: Box::new([0; ROOM]),
            time: 0,
            minute: (3, 720),
            reads_clock: None,
            handles: 0,
        };
        port.set_up(windows);
        port
    }
}

impl Agent for Port {
    fn new() -> Self {
        Port::within(&ALL_WEEK)
    }

    fn set_time(&mut self, time: u64) {
        self.time = time;
    }

    fn read_clock(&mut self) {
        clock::use_machines(true);
        self.reads_clock = Some(Instant::now());
    }

    fn deliver(&mut self, datagram: &[u8], sent: &mut impl FnMut(&[u8])) {
        let time = self.reads_clock.map_or(self.time, clock::milliseconds_since);
        self.process(datagram, &[], DATAGRAM, time, 0);
        sent(self.replied());
        while self.agent.call != NO_CALL {
            let (input, handle, sample) = self.bridge(datagram);
            self.process(datagram, sample, input, 0, handle);
            sent(self.replied());
        }
    }

    fn sweep(&mut self, sent: &mut impl FnMut(&[u8])) {
        let (sessions, rows) = (self.tables.sessions.as_mut_ptr(), SESSIONS);
        let (out, room) = (self.out.as_mut_ptr(), ROOM);
        // SAFETY: as in `process`.
        let answer = unsafe { xrce_agent_sweep(&self.agent, 1, sessions, rows, out, room, self.time) };
        sent(&self.out[..number(answer)]);
    }

    fn end(&mut self, id: u8, sent: &mut impl FnMut(&[u8])) {
        let (sessions, rows) = (self.tables.sessions.as_mut_ptr(), SESSIONS);
        // SAFETY: as in `process`.
        let answer = unsafe { xrce_agent_remove(&self.agent, 1, sessions, rows, id) };
        sent(&[number(answer) as u8]);
    }

    fn handles(&self) -> u32 {
        self.handles
    }
}
