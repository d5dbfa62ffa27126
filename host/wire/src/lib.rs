//! What a client writes and reads: the layouts of document 01, "The wire". Numbers of two bytes have the low byte first.

mod datagram;
mod received;
mod reply;

pub use datagram::{in_parts, strings, Datagram};
pub use received::Received;
pub use reply::{Body, Reply};

/// Object kinds.
pub const PARTICIPANT: u8 = 1;
pub const TOPIC: u8 = 2;
pub const PUBLISHER: u8 = 3;
pub const SUBSCRIBER: u8 = 4;
pub const DATA_WRITER: u8 = 5;
pub const DATA_READER: u8 = 6;

/// Status codes.
pub const OK: u8 = 0;
pub const ERR_UNKNOWN_REF: u8 = 1;
pub const ERR_INVALID_DATA: u8 = 2;
pub const ERR_INCOMPATIBLE: u8 = 3;
pub const ERR_RESOURCES: u8 = 4;
