//! The agent's bridge over real DDS. The seven bridge calls are one DDS call each, made by the session that they belong to: it has books of
//! what it made, and reaches nothing else. Whoever asks waits a stated time and no longer.
//!
//! The DDS is Eclipse Cyclone DDS 0.10, behind one C file (`shim.c`). Where it wasn't installed when this was built, there is no
//! [`Cyclone`] to be had.
#![deny(unsafe_op_in_unsafe_fn)]
#![warn(missing_docs)]

mod books;
mod bridge;
#[cfg_attr(not(cyclone), path = "absent.rs")]
mod cyclone;
mod domains;
mod entities;
mod news;
mod reaper;
mod session;

pub use bridge::Dds;
pub use cyclone::Cyclone;
pub use entities::{Entities, Quality, Refused, Settings};
pub use news::News;

#[cfg(test)]
mod pretend;
