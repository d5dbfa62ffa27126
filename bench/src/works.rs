//! The works that are timed on an agent: datagrams going round the sessions, sessions opened and ended, sweeps.

use crate::agents::{Agent, TIMEOUT};
use crate::datagrams::{create_client, datagram};

/// The time at which the standing sessions were last active, and one at which only a session opened at 0 is expired.
pub const LATER: u64 = 10 * TIMEOUT;

pub trait Work {
    /// One turn; `turn` counts from 0 and begins again behind `rounds`.
    fn turn<A: Agent>(&self, agent: &mut A, turn: usize, sent: &mut impl FnMut(&[u8]));

    /// After how many turns the same is done again.
    fn rounds(&self) -> usize;
}

/// One datagram, or two in turn, for each of the sessions.
pub struct Datagrams {
    each: Vec<All>,
    sessions: usize,
}

/// A datagram of `len` bytes for each session, one behind the other: fetching them costs little, and both the same.
struct All {
    bytes: Vec<u8>,
    len: usize,
}

impl Datagrams {
    pub fn new(sessions: usize, stream: u8, submessages: &[Vec<u8>]) -> Self {
        let all = |one: &Vec<u8>| All {
            bytes: (1..=sessions).flat_map(|id| datagram(id as u8, stream, one)).collect(),
            len: datagram(0, stream, one).len(),
        };
        Self { each: submessages.iter().map(all).collect(), sessions }
    }
}

impl Work for Datagrams {
    fn turn<A: Agent>(&self, agent: &mut A, turn: usize, sent: &mut impl FnMut(&[u8])) {
        for all in &self.each {
            let start = turn * all.len;
            agent.deliver(&all.bytes[start..start + all.len], sent);
        }
    }

    fn rounds(&self) -> usize {
        self.sessions
    }
}

/// How a session that was opened is ended.
pub enum Ending {
    Removal,
    Sweep,
}

/// A session is opened beside the standing ones, and ended.
pub struct Opening {
    datagram: Vec<u8>,
    ending: Ending,
}

impl Opening {
    pub fn new(ending: Ending) -> Self {
        Self { datagram: datagram(0, 0, &create_client()), ending }
    }
}

impl Work for Opening {
    fn turn<A: Agent>(&self, agent: &mut A, _turn: usize, sent: &mut impl FnMut(&[u8])) {
        let mut id = 0;
        agent.set_time(0);
        agent.deliver(&self.datagram, &mut |reply| {
            id = reply[0];
            sent(reply);
        });
        agent.set_time(LATER);
        match self.ending {
            Ending::Removal => agent.end(id, sent),
            Ending::Sweep => agent.sweep(sent),
        }
    }

    fn rounds(&self) -> usize {
        1
    }
}

/// A sweep when no session is expired.
pub struct Sweep;

impl Work for Sweep {
    fn turn<A: Agent>(&self, agent: &mut A, _turn: usize, sent: &mut impl FnMut(&[u8])) {
        agent.sweep(sent);
    }

    fn rounds(&self) -> usize {
        1
    }
}
