//! A safe wrapper over the verified DDS-XRCE agent. The agent takes datagrams, replies, and asks its host for one bridge
//! call at a time; sockets, clock and DDS stay with the host.
//!
//! With a [`Bridge`], a host is a few lines:
//!
//! ```
//! use xrce_agent::{replies, Agent, Bridge, Failed, Given, Handle, ALL_WEEK};
//!
//! struct Counting(u32); // a bridge that makes entities and holds no data
//!
//! impl Counting {
//!     fn make(&mut self) -> Result<Handle, Failed> {
//!         self.0 += 1;
//!         Ok(Handle(self.0))
//!     }
//! }
//!
//! impl Bridge for Counting {
//!     fn create_participant(&mut self, _domain: u16) -> Result<Handle, Failed> { self.make() }
//!     fn create_topic(&mut self, _: Handle, _: &[u8], _: &[u8]) -> Result<Handle, Failed> { self.make() }
//!     fn create_writer(&mut self, _: Handle, _: Handle) -> Result<Handle, Failed> { self.make() }
//!     fn create_reader(&mut self, _: Handle, _: Handle) -> Result<Handle, Failed> { self.make() }
//!     fn write_data(&mut self, _: Handle, _: &[u8]) -> Result<(), Failed> { Ok(()) }
//!     fn read_data(&mut self, _: Handle) -> Result<Option<Vec<u8>>, Failed> { Ok(None) }
//!     fn delete_entity(&mut self, _: Handle) -> Result<(), Failed> { Ok(()) }
//! }
//!
//! # fn main() -> Result<(), xrce_agent::Refusal> {
//! let mut agent = Agent::new(16, 30_000, &ALL_WEEK)?; // at most 16 clients; idle ones expire after 30 s; no quiet hours
//! let mut bridge = Counting(0);
//! let mut out = Vec::new();
//!
//! // CREATE_CLIENT with key 01 02 03 04, at 0 ms: session 1 is opened.
//! agent.serve(&[1, 0, 0, 0, 0x00, 0, 5, 0, 1, 2, 3, 4, 0], Given::at(0), &mut out, &mut bridge)?;
//! assert_eq!(out, [1, 0, 0, 0, 0x05, 0, 3, 0, 0, 0, 0]); // STATUS of object 0: OK
//!
//! // CREATE of object 7, a Participant (kind 1) in domain 0, at 5 ms.
//! agent.serve(&[1, 0, 0, 0, 0x01, 0, 5, 0, 7, 0, 1, 0, 0], Given::at(5), &mut out, &mut bridge)?;
//! for reply in replies(&out) {
//!     assert_eq!(reply, [1, 0, 0, 0, 0x05, 0, 3, 0, 7, 0, 0]); // STATUS of object 7: OK
//! }
//! assert_eq!(bridge.0, 1);
//!
//! // Once a second or so: end the sessions that expired.
//! assert!(agent.sweep(1000, &mut [0; 255])?.is_empty());
//! # Ok(())
//! # }
//! ```
//!
//! A host whose bridge answers later uses [`Agent::incoming`], makes the [`Call`] it hands out when it likes, and hands the
//! [`Answer`] in with [`Agent::answer`]. What can't be done is a [`Refusal`], and a refused call changed nothing.
//! [`Agent::list`] has a session's objects in the order in which they can be deleted.
//!
//! A Topic's name and type reach the bridge as well-formed UTF-8 (RFC 3629). A CREATE with other bytes, or with strings that are
//! cut short, is answered ERR_INVALID_DATA: the bridge isn't called, and an older object of that number stays.
//!
//! A host with quiet hours sets its agent up with [`Window`]s, and gives weekday and minute with each datagram. WRITE_DATA to a
//! known writer in a closed minute is answered ERR_INCOMPATIBLE, and the bridge isn't called. [`Agent::first_open`] has the first open
//! minute at or after a given one.
//!
//! The archive is found by `XRCE_AGENT_LIB` (a folder with `libcabi.a`), or in the repository's `target/staticlib`.
#![deny(unsafe_op_in_unsafe_fn)]
#![warn(missing_docs)]

mod agent;
mod bridge;
mod call;
#[allow(missing_docs)]
mod ffi;
mod hours;
pub mod lent;
mod records;
mod refusal;
mod replies;
mod shown;

pub use agent::{Agent, Outcome};
pub use bridge::{Answered, Bridge, Failed};
pub use call::{Answer, Call, Handle};
pub use hours::{Given, Window, ALL_WEEK};
pub use refusal::Refusal;
pub use replies::{replies, room, Replies};
