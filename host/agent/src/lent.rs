//! The C functions over slices, for a host that keeps record, tables and stores itself (in a static, in shared memory). They can
//! be called with anything: what can't be done is refused, and a refused call changes no byte of what was lent.

pub use crate::ffi::{first_open, list, need, process, remove, setup, sweep};
pub use crate::records::{
    AgentRecord, Lent, ObjectRecord, SessionRow, StreamRow, Tables, Told, HELD, HOURS, LENGTHS, OBJECTS, PARTS,
    REBUILT, SESSIONS, STREAMS,
};
pub use crate::refusal::read;
