//! The agent with everything it needs: its record, its tables with their stores, and the datagram of an open call.

use crate::call::{Answer, Call};
use crate::ffi;
use crate::hours::{minute_of, Given, Window};
use crate::records::{AgentRecord, Tables, Told};
use crate::refusal::{read, Refusal};

/// An agent. It holds 294 KiB of tables on the heap, and 144.25 KiB for each of `max_clients`.
///
/// While a bridge call is open, [`Agent::answer`] is the only call in its turn: datagrams, removals and sweeps are
/// refused as 15 (document 01, "Refused"). [`Agent::list`] and [`Agent::first_open`] only read, and answer then too.
#[derive(Debug)]
pub struct Agent {
    record: AgentRecord,
    tables: Tables,
    // The open call's datagram. Its space is used again for the next.
    kept: Vec<u8>,
}

/// What a datagram or an answer led to.
#[derive(Clone, Copy, Debug, PartialEq, Eq)]
pub struct Outcome<'a> {
    /// How many bytes at the start of the output are replies; [`crate::replies`] cuts them apart. Each goes to the
    /// address that the datagram came from.
    pub wrote: usize,
    /// The bridge call to make and answer before anything else.
    pub call: Option<Call<'a>>,
}

impl Agent {
    /// An agent without sessions, in which writing is open in these windows: up to 8 a weekday, of which each begins where the one before
    /// it ends, or later; those of several weekdays may come mixed. [`crate::ALL_WEEK`] opens every minute. Refused as 16 if
    /// `max_clients` is over 255; then as 19.
    pub fn new(max_clients: u64, timeout_ms: u64, windows: &[Window]) -> Result<Agent, Refusal> {
        let mut agent = Agent { record: AgentRecord::default(), tables: Tables::new(max_clients), kept: Vec::new() };
        read(ffi::setup(agent.record.lend_mut(), agent.tables.lend(), windows, max_clients, timeout_ms))?;
        Ok(agent)
    }

    /// A datagram with its time, weekday and minute. Refused: 15, 16, 20, 1 to 5, 12, 14, 13, in this order.
    pub fn incoming(&mut self, datagram: &[u8], given: Given, out: &mut [u8]) -> Result<Outcome<'_>, Refusal> {
        let told = Told { datagram, given, ..Told::default() };
        read(ffi::process(self.record.lend_mut(), self.tables.lend(), out, told))?;
        // The datagram is lent again with the answer; without a call nobody asks for it again.
        if self.record.call != 0 {
            self.kept.clear();
            self.kept.extend_from_slice(datagram);
        }
        Ok(self.outcome())
    }

    /// The bridge's answer to the open call; the rest of its datagram is handled then. A refused one leaves the call open.
    pub fn answer(&mut self, told: Answer<'_>, out: &mut [u8]) -> Result<Outcome<'_>, Refusal> {
        let told = told.told(&self.kept);
        read(ffi::process(self.record.lend_mut(), self.tables.lend(), out, told))?;
        Ok(self.outcome())
    }

    fn outcome(&self) -> Outcome<'_> {
        Outcome { wrote: self.record.wrote as usize, call: self.open_call() }
    }

    /// The call that is open, if one is.
    pub fn open_call(&self) -> Option<Call<'_>> {
        // A call of a rebuilt submessage shows parts of the rebuilt bytes, which stand in the tables.
        let shown = if self.record.left_end == 0 { &self.kept[..] } else { &self.tables.rebuilt[..] };
        Call::standing(&self.record, shown)
    }

    /// The session that the open call belongs to.
    pub fn open_session(&self) -> Option<u8> {
        (self.record.call != 0).then_some(self.record.session as u8)
    }

    /// Ends a session; whether it was live. No bridge call is made for its objects. Refused: 15.
    pub fn remove(&mut self, id: u8) -> Result<bool, Refusal> {
        let live = read(ffi::remove(self.record.lend(), &mut self.tables.sessions, id))?;
        Ok(live == 1)
    }

    /// Ends the sessions that are expired at that time and gives their ids, ascending, from the start of `out`; 255 bytes
    /// always suffice. No bridge call is made for their objects. Refused: 15, 13.
    pub fn sweep<'a>(&mut self, time_ms: u64, out: &'a mut [u8]) -> Result<&'a [u8], Refusal> {
        let ended = read(ffi::sweep(self.record.lend(), &mut self.tables.sessions, out, time_ms))?;
        Ok(&out[..ended as usize])
    }

    /// The numbers of a session's objects, each once, from the start of `out`; 32 numbers always suffice. Kind 6 comes first
    /// and 1 last, numbers ascend within a kind: DELETEs in this order never meet an object that another depends on. An id
    /// that isn't live has none. Refused: 13.
    pub fn list<'a>(&self, id: u8, out: &'a mut [u16]) -> Result<&'a [u16], Refusal> {
        let count = read(ffi::list(&self.tables.sessions, &self.tables.objects, out, id))?;
        Ok(&out[..count as usize])
    }

    /// The first open minute at or after one, round the week: its weekday and minute, or `None` if none is ever open. Refused: 20.
    pub fn first_open(&self, day: u8, minute: u16) -> Result<Option<(u8, u16)>, Refusal> {
        Ok(minute_of(read(ffi::first_open(&self.tables.hours, day, minute))?))
    }
}
