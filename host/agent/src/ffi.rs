//! The C interface (include/xrce_agent.h), and all unsafe code of this library. Each function takes slices, so that it
//! can be called with anything: the agent answers for every argument, and what can't be done is refused. The
//! agent's record is a slice as well, and the first of it is looked at.

use crate::hours::Window;
use crate::records::{AgentRecord, Lent, ObjectRecord, SessionRow, StreamRow, Told};

unsafe extern "C" {
    fn xrce_need(max_clients: u64) -> u64;

    fn xrce_agent_setup(
        agent: *mut AgentRecord,
        agents: usize,
        sessions: *mut SessionRow,
        session_rows: usize,
        streams: *mut StreamRow,
        stream_rows: usize,
        objects: *mut ObjectRecord,
        object_records: usize,
        held: *const u8,
        held_bytes: usize,
        parts: *const u8,
        part_bytes: usize,
        lengths: *const u32,
        length_count: usize,
        rebuilt: *const u8,
        rebuilt_bytes: usize,
        hours: *mut u8,
        hours_bytes: usize,
        windows: *const Window,
        window_count: usize,
        max_clients: u64,
        timeout_ms: u64,
    ) -> u64;

    fn xrce_agent_process(
        agent: *mut AgentRecord,
        agents: usize,
        sessions: *mut SessionRow,
        session_rows: usize,
        streams: *mut StreamRow,
        stream_rows: usize,
        objects: *mut ObjectRecord,
        object_records: usize,
        held: *mut u8,
        held_bytes: usize,
        parts: *mut u8,
        part_bytes: usize,
        lengths: *mut u32,
        length_count: usize,
        rebuilt: *mut u8,
        rebuilt_bytes: usize,
        hours: *const u8,
        hours_bytes: usize,
        out: *mut u8,
        room: usize,
        datagram: *const u8,
        datagram_len: usize,
        sample: *const u8,
        sample_len: usize,
        input: u8,
        time: u64,
        day: u8,
        minute: u16,
        handle: u32,
    ) -> u64;

    fn xrce_agent_remove(
        agent: *const AgentRecord,
        agents: usize,
        sessions: *mut SessionRow,
        session_rows: usize,
        id: u8,
    ) -> u64;

    fn xrce_agent_sweep(
        agent: *const AgentRecord,
        agents: usize,
        sessions: *mut SessionRow,
        session_rows: usize,
        out: *mut u8,
        room: usize,
        time: u64,
    ) -> u64;

    fn xrce_agent_list(
        sessions: *const SessionRow,
        session_rows: usize,
        objects: *const ObjectRecord,
        object_records: usize,
        out: *mut u16,
        room: usize,
        id: u8,
    ) -> u64;

    fn xrce_agent_first_open(hours: *const u8, hours_bytes: usize, day: u8, minute: u16) -> u64;
}

/// The documented need for `max_clients` in bytes; refused: 16.
pub fn need(max_clients: u64) -> u64 {
    // SAFETY: takes a number and gives one; no memory is lent.
    unsafe { xrce_need(max_clients) }
}

/// Sets an agent up over lent tables and lent stores, of which nothing is looked at; what the windows open is kept in `hours`.
/// Refused: 16, 19.
pub fn setup(
    agent: &mut [AgentRecord],
    tables: Lent<'_>,
    windows: &[Window],
    max_clients: u64,
    timeout_ms: u64,
) -> u64 {
    let Lent { sessions, streams, objects, held, parts, lengths, rebuilt, hours } = tables;
    // SAFETY: each pointer comes from a slice with its length, so it isn't null and all its elements may be written;
    // mutable slices share no byte; every bit pattern is a value of the numbers in them; no pointer is kept. The windows are
    // read alone, and a shared slice shares no byte with a mutable one.
    unsafe {
        xrce_agent_setup(
            agent.as_mut_ptr(),
            agent.len(),
            sessions.as_mut_ptr(),
            sessions.len(),
            streams.as_mut_ptr(),
            streams.len(),
            objects.as_mut_ptr(),
            objects.len(),
            held.as_ptr(),
            held.len(),
            parts.as_ptr(),
            parts.len(),
            lengths.as_ptr(),
            lengths.len(),
            rebuilt.as_ptr(),
            rebuilt.len(),
            hours.as_mut_ptr(),
            hours.len(),
            windows.as_ptr(),
            windows.len(),
            max_clients,
            timeout_ms,
        )
    }
}

/// A datagram, or the bridge's answer. Refused, in this order: 15, 16, 20, 1 to 5, 12, 14, 13.
pub fn process(agent: &mut [AgentRecord], tables: Lent<'_>, out: &mut [u8], told: Told<'_>) -> u64 {
    let Lent { sessions, streams, objects, held, parts, lengths, rebuilt, hours } = tables;
    // SAFETY: as in `setup`; the datagram and the sample are read alone, and shared slices share no byte with mutable ones.
    unsafe {
        xrce_agent_process(
            agent.as_mut_ptr(),
            agent.len(),
            sessions.as_mut_ptr(),
            sessions.len(),
            streams.as_mut_ptr(),
            streams.len(),
            objects.as_mut_ptr(),
            objects.len(),
            held.as_mut_ptr(),
            held.len(),
            parts.as_mut_ptr(),
            parts.len(),
            lengths.as_mut_ptr(),
            lengths.len(),
            rebuilt.as_mut_ptr(),
            rebuilt.len(),
            hours.as_ptr(),
            hours.len(),
            out.as_mut_ptr(),
            out.len(),
            told.datagram.as_ptr(),
            told.datagram.len(),
            told.sample.as_ptr(),
            told.sample.len(),
            told.input,
            told.given.time_ms,
            told.given.day,
            told.given.minute,
            told.handle,
        )
    }
}

/// Ends a session; the answer's number is 1 if it was live, else 0. Refused: 15, 16.
pub fn remove(agent: &[AgentRecord], sessions: &mut [SessionRow], id: u8) -> u64 {
    // SAFETY: as in `setup`; the agent's record is read alone.
    unsafe { xrce_agent_remove(agent.as_ptr(), agent.len(), sessions.as_mut_ptr(), sessions.len(), id) }
}

/// Ends the expired sessions and lists their ids in `out`; the answer's number is how many. Refused: 15, 16, 13.
pub fn sweep(agent: &[AgentRecord], sessions: &mut [SessionRow], out: &mut [u8], time_ms: u64) -> u64 {
    // SAFETY: as in `remove`, with the output as one more slice that is written.
    unsafe {
        xrce_agent_sweep(
            agent.as_ptr(),
            agent.len(),
            sessions.as_mut_ptr(),
            sessions.len(),
            out.as_mut_ptr(),
            out.len(),
            time_ms,
        )
    }
}

/// Lists the numbers of a session's objects in `out`, kind 6 down to 1 and ascending within a kind; the answer's number is how
/// many. Never out of turn. Refused: 16, 13.
pub fn list(sessions: &[SessionRow], objects: &[ObjectRecord], out: &mut [u16], id: u8) -> u64 {
    // SAFETY: as in `setup`; the tables are read alone, and shared slices share no byte with the output.
    unsafe {
        xrce_agent_list(
            sessions.as_ptr(),
            sessions.len(),
            objects.as_ptr(),
            objects.len(),
            out.as_mut_ptr(),
            out.len(),
            id,
        )
    }
}

/// The first open minute at or after one, round the week; the answer's number is 0 if there is none, else 1 more than its place in
/// the week. Never out of turn. Refused: 16, 20.
pub fn first_open(hours: &[u8], day: u8, minute: u16) -> u64 {
    // SAFETY: as in `setup`; the week's minutes are read alone.
    unsafe { xrce_agent_first_open(hours.as_ptr(), hours.len(), day, minute) }
}
