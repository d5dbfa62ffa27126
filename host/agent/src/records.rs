//! The records that the host lends, laid out as in include/xrce_agent.h, and the documented need of document 01.

use crate::hours::{Given, Window};
use std::mem::{align_of, offset_of, size_of};

/// Rows of the table of sessions, one for each id.
pub const SESSIONS: usize = 256;
/// Rows of the table of streams: 8 a session.
pub const STREAMS: usize = 2048;
/// Records of the table of objects: 32 a session.
pub const OBJECTS: usize = 8192;
/// Bytes of the store of held messages for each client: 16 messages of 1,024 bytes on each of 7 streams.
pub const HELD: usize = 114_688;
/// Bytes of the store of fragments for each client: 64 bodies of up to 512 bytes.
pub const PARTS: usize = 32_768;
/// Lengths of the store of fragments for each client.
pub const LENGTHS: usize = 64;
/// Bytes of the place of rebuilt messages, one for all clients.
pub const REBUILT: usize = 32_768;
/// Bytes of the week's minutes, one for all clients: a byte for each.
pub const HOURS: usize = 7 * 1440;

/// A row of the table of sessions: live, key, last activity, objects in use, streams in use, the session's slot, and the total of
/// its fragments with how many there are.
pub type SessionRow = [u64; 8];
/// A row of the table of streams.
pub type StreamRow = [u16; 35];

/// The agent's record: `struct xrce_agent`, whose comments say what each number is.
#[repr(C)]
#[derive(Clone, Debug, Default, PartialEq, Eq)]
#[allow(missing_docs)]
pub struct AgentRecord {
    pub max_clients: u64,
    pub timeout_ms: u64,
    pub next: u64,
    pub open: u64,
    pub kind: u64,
    pub parent: u64,
    pub session: u64,
    pub stream: u64,
    pub number: u64,
    pub at: u64,
    pub time: u64,
    pub is_open: u64,
    pub left_at: u64,
    pub left_end: u64,
    pub wrote: u64,
    pub call: u64,
    pub handle: u64,
    pub topic: u64,
    pub start: u64,
    pub len: u64,
    pub type_start: u64,
    pub type_len: u64,
}

impl AgentRecord {
    /// How many numbers it has.
    pub const NUMBERS: usize = 22;

    /// The record as the functions take it: a slice of one.
    pub fn lend(&self) -> &[AgentRecord] {
        std::slice::from_ref(self)
    }

    /// The same, to be written.
    pub fn lend_mut(&mut self) -> &mut [AgentRecord] {
        std::slice::from_mut(self)
    }

    /// Its numbers, in their order.
    pub fn numbers_mut(&mut self) -> [&mut u64; Self::NUMBERS] {
        let AgentRecord { max_clients, timeout_ms, next, open, kind, parent, session, .. } = self;
        let AgentRecord {
            stream,
            number,
            at,
            time,
            is_open,
            left_at,
            left_end,
            wrote,
            call,
            handle,
            topic,
            start,
            len,
            type_start,
            type_len,
            ..
        } = self;
        [
            max_clients,
            timeout_ms,
            next,
            open,
            kind,
            parent,
            session,
            stream,
            number,
            at,
            time,
            is_open,
            left_at,
            left_end,
            wrote,
            call,
            handle,
            topic,
            start,
            len,
            type_start,
            type_len,
        ]
    }
}

/// A record of the table of objects: `struct xrce_object`.
#[repr(C)]
#[derive(Clone, Copy, Debug, Default, PartialEq, Eq)]
#[allow(missing_docs)]
pub struct ObjectRecord {
    pub number: u16,
    pub kind: u8,
    pub bridged: u8,
    pub handle: u32,
    pub parent: u16,
}

/// The three tables, the stores of held messages and of fragments, the place of rebuilt messages and the week's minutes, lent for one
/// call.
pub struct Lent<'a> {
    /// At least [`SESSIONS`] rows, else the call is refused as 16.
    pub sessions: &'a mut [SessionRow],
    /// At least [`STREAMS`] rows.
    pub streams: &'a mut [StreamRow],
    /// At least [`OBJECTS`] records.
    pub objects: &'a mut [ObjectRecord],
    /// At least [`HELD`] bytes for each of `max_clients`. A set-up measures it and writes none of them.
    pub held: &'a mut [u8],
    /// At least [`PARTS`] bytes for each of `max_clients`; as with all below, a set-up writes none of them.
    pub parts: &'a mut [u8],
    /// At least [`LENGTHS`] numbers for each of `max_clients`.
    pub lengths: &'a mut [u32],
    /// At least [`REBUILT`] bytes. An open call may show parts of them.
    pub rebuilt: &'a mut [u8],
    /// At least [`HOURS`] bytes, 1 for each minute of the week that is open. A set-up writes them, and no other call does.
    pub hours: &'a mut [u8],
}

/// What `process` is told: `enum xrce_input` with what belongs to it.
#[derive(Clone, Copy, Debug, Default)]
pub struct Told<'a> {
    /// 0 a datagram, 1 created, 2 done, 3 a sample, 4 no sample, 5 failed; others are refused as 15.
    pub input: u8,
    /// What comes with a datagram, and isn't looked at with an answer.
    pub given: Given,
    /// The handle of 1.
    pub handle: u32,
    /// The datagram, lent again with the answer to its call.
    pub datagram: &'a [u8],
    /// The sample of 3.
    pub sample: &'a [u8],
}

/// The tables and the stores of the documented need, on the heap. Zeroed there: nothing of their size stands on the stack.
#[derive(Clone, Debug, PartialEq, Eq)]
pub struct Tables {
    /// The table of sessions.
    pub sessions: Box<[SessionRow]>,
    /// The table of streams.
    pub streams: Box<[StreamRow]>,
    /// The table of objects.
    pub objects: Box<[ObjectRecord]>,
    /// The store of held messages.
    pub held: Box<[u8]>,
    /// The bodies of fragments.
    pub parts: Box<[u8]>,
    /// And their lengths.
    pub lengths: Box<[u32]>,
    /// The place of rebuilt messages.
    pub rebuilt: Box<[u8]>,
    /// The week's minutes.
    pub hours: Box<[u8]>,
}

impl Tables {
    /// Tables of the documented need for that many clients, all zero. For more than the 255 that there may be, the stores
    /// are those of 255: the set-up refuses them.
    pub fn new(max_clients: u64) -> Self {
        let clients = max_clients.min(255) as usize;
        Tables {
            sessions: vec![[0; 8]; SESSIONS].into_boxed_slice(),
            streams: vec![[0; 35]; STREAMS].into_boxed_slice(),
            objects: vec![ObjectRecord::default(); OBJECTS].into_boxed_slice(),
            held: vec![0; HELD * clients].into_boxed_slice(),
            parts: vec![0; PARTS * clients].into_boxed_slice(),
            lengths: vec![0; LENGTHS * clients].into_boxed_slice(),
            rebuilt: vec![0; REBUILT].into_boxed_slice(),
            hours: vec![0; HOURS].into_boxed_slice(),
        }
    }

    /// The tables and the stores, lent for one call.
    pub fn lend(&mut self) -> Lent<'_> {
        Lent {
            sessions: &mut self.sessions,
            streams: &mut self.streams,
            objects: &mut self.objects,
            held: &mut self.held,
            parts: &mut self.parts,
            lengths: &mut self.lengths,
            rebuilt: &mut self.rebuilt,
            hours: &mut self.hours,
        }
    }
}

/// Asserts while compiling that each named number of the record stands at its place.
macro_rules! words_in_order {
    ($at:expr; $first:ident $($rest:ident)*) => {
        assert!(offset_of!(AgentRecord, $first) == 8 * $at);
        words_in_order!($at + 1; $($rest)*);
    };
    ($at:expr;) => { assert!(size_of::<AgentRecord>() == 8 * $at && $at == AgentRecord::NUMBERS); };
}

const _: () = {
    words_in_order!(0; max_clients timeout_ms next open kind parent session stream number at time is_open
        left_at left_end wrote call handle topic start len type_start type_len);
    assert!(align_of::<AgentRecord>() == 8);
};

const _: () = {
    assert!(offset_of!(ObjectRecord, number) == 0);
    assert!(offset_of!(ObjectRecord, kind) == 2);
    assert!(offset_of!(ObjectRecord, bridged) == 3);
    assert!(offset_of!(ObjectRecord, handle) == 4);
    assert!(offset_of!(ObjectRecord, parent) == 8);
    assert!(size_of::<ObjectRecord>() == 12 && align_of::<ObjectRecord>() == 4);
    assert!(size_of::<SessionRow>() == 64 && size_of::<StreamRow>() == 70);
    assert!(offset_of!(Window, day) == 0 && offset_of!(Window, from) == 2 && offset_of!(Window, to) == 4);
    assert!(size_of::<Window>() == 6 && align_of::<Window>() == 2);
};
