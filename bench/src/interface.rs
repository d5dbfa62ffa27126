//! The port's C interface as its headers state it (include/xrce_agent.h, include/xrce_wire.h). No compiler checks these
//! lines against them; that every row's bytes are compared does.

pub type SessionRow = [u64; 8];
pub type StreamRow = [u16; 35];
/// A window: weekday, from and to.
pub type Window = [u16; 3];

/// The agent's record.
#[repr(C)]
#[derive(Default)]
pub struct AgentRecord {
    pub max_clients: u64,
    pub timeout_ms: u64,
    pub next: u64,
    pub open: u64,
    pub kind: u64,
    pub parent: u64,
    pub session: u64,
    pub stream: u64,
    pub number: u64,
    pub at: u64,
    pub time: u64,
    pub is_open: u64,
    pub left_at: u64,
    pub left_end: u64,
    pub wrote: u64,
    pub call: u64,
    pub handle: u64,
    pub topic: u64,
    pub start: u64,
    pub len: u64,
    pub type_start: u64,
    pub type_len: u64,
}

#[repr(C)]
#[derive(Clone, Copy, Default)]
pub struct Object {
    pub number: u16,
    pub kind: u8,
    pub bridged: u8,
    pub handle: u32,
    pub parent: u16,
}

/// The documented need.
pub const SESSIONS: usize = 256;
pub const STREAMS: usize = 2048;
pub const OBJECTS: usize = 8192;
/// Bytes of the store of held messages for each client.
pub const HELD: usize = 114_688;
/// Bytes and lengths of the store of fragments for each client, and the bytes of the place of rebuilt messages.
pub const PARTS: usize = 32_768;
pub const LENGTHS: usize = 64;
pub const REBUILT: usize = 32_768;
/// Bytes of the week's minutes.
pub const HOURS: usize = 10_080;

/// Every minute of the week is open.
pub const ALL_WEEK: [Window; 7] =
    [[0, 0, 1440], [1, 0, 1440], [2, 0, 1440], [3, 0, 1440], [4, 0, 1440], [5, 0, 1440], [6, 0, 1440]];

/// What `xrce_agent_process` is given.
pub const DATAGRAM: u8 = 0;
pub const CREATED: u8 = 1;
pub const DONE: u8 = 2;
pub const SAMPLED: u8 = 3;

/// Bridge calls; 1 to 4 create an entity.
pub const NO_CALL: u64 = 0;
pub const WRITE_DATA: u64 = 5;
pub const READ_DATA: u64 = 6;
pub const DELETE_ENTITY: u64 = 7;

/// Numbers of a submessage, and of a store of fragments.
pub const ROW: usize = 8;
pub const STORE: usize = 3;

extern "C" {
    pub fn xrce_need(max_clients: u64) -> u64;

    pub fn xrce_agent_setup(
        agent: *mut AgentRecord,
        agents: usize,
        sessions: *mut SessionRow,
        session_rows: usize,
        streams: *mut StreamRow,
        stream_rows: usize,
        objects: *mut Object,
        object_records: usize,
        held: *const u8,
        held_bytes: usize,
        parts: *const u8,
        part_bytes: usize,
        lengths: *const u32,
        length_count: usize,
        rebuilt: *const u8,
        rebuilt_bytes: usize,
        hours: *mut u8,
        hours_bytes: usize,
        windows: *const Window,
        window_count: usize,
        max_clients: u64,
        timeout_ms: u64,
    ) -> u64;

    pub fn xrce_agent_process(
        agent: *mut AgentRecord,
        agents: usize,
        sessions: *mut SessionRow,
        session_rows: usize,
        streams: *mut StreamRow,
        stream_rows: usize,
        objects: *mut Object,
        object_records: usize,
        held: *mut u8,
        held_bytes: usize,
        parts: *mut u8,
        part_bytes: usize,
        lengths: *mut u32,
        length_count: usize,
        rebuilt: *mut u8,
        rebuilt_bytes: usize,
        hours: *const u8,
        hours_bytes: usize,
        out: *mut u8,
        room: usize,
        datagram: *const u8,
        datagram_len: usize,
        sample: *const u8,
        sample_len: usize,
        input: u8,
        time: u64,
        day: u8,
        minute: u16,
        handle: u32,
    ) -> u64;

    pub fn xrce_agent_remove(
        agent: *const AgentRecord,
        agents: usize,
        sessions: *mut SessionRow,
        session_rows: usize,
        id: u8,
    ) -> u64;

    pub fn xrce_agent_sweep(
        agent: *const AgentRecord,
        agents: usize,
        sessions: *mut SessionRow,
        session_rows: usize,
        out: *mut u8,
        room: usize,
        time: u64,
    ) -> u64;

    pub fn xrce_agent_list(
        sessions: *const SessionRow,
        session_rows: usize,
        objects: *const Object,
        object_records: usize,
        out: *mut u16,
        room: usize,
        id: u8,
    ) -> u64;

    pub fn xrce_agent_first_open(hours: *const u8, hours_bytes: usize, day: u8, minute: u16) -> u64;

    pub fn xrce_wire_header(datagram: *const u8, datagram_len: usize) -> u64;

    pub fn xrce_wire_parse(datagram: *const u8, datagram_len: usize, rows: *mut [u64; ROW], row_count: usize) -> u64;

    pub fn xrce_wire_string(bytes: *const u8, bytes_len: usize, at: usize) -> u64;

    pub fn xrce_wire_write(
        out: *mut u8,
        room: usize,
        session: u8,
        stream: u8,
        sequence: u16,
        row: *const u64,
        row_words: usize,
        body: *const u8,
        body_len: usize,
    ) -> u64;

    pub fn xrce_wire_fragments(payload: *const u8, payload_len: usize, size: u64) -> u64;

    pub fn xrce_wire_fragment(
        payload: *const u8,
        payload_len: usize,
        size: u64,
        number: u16,
        out: *mut u8,
        room: usize,
    ) -> u64;

    pub fn xrce_wire_store(
        store: *mut u64,
        store_words: usize,
        total: u16,
        width: u16,
        slots: *const u8,
        slot_bytes: usize,
        lengths: *mut u32,
        length_count: usize,
    ) -> u64;

    pub fn xrce_wire_insert(
        store: *mut u64,
        store_words: usize,
        slots: *mut u8,
        slot_bytes: usize,
        lengths: *mut u32,
        length_count: usize,
        number: u16,
        body: *const u8,
        body_len: usize,
    ) -> u64;

    pub fn xrce_wire_assemble(
        store: *const u64,
        store_words: usize,
        slots: *const u8,
        slot_bytes: usize,
        lengths: *const u32,
        length_count: usize,
        out: *mut u8,
        room: usize,
    ) -> u64;
}

/// The number that comes with an answer; a refusal ends the run, since no row has one.
pub fn number(answer: u64) -> usize {
    assert_eq!(answer % 256, 0, "the port refused a row's call");
    (answer / 65536) as usize
}
