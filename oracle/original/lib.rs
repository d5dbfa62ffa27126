//! The published crate, declared and nothing else: every line of its behaviour stands in src/, byte for byte.

#[path = "src/agent.rs"]
pub mod agent;
#[path = "src/config.rs"]
pub mod config;
#[path = "src/protocol.rs"]
pub mod protocol;
#[path = "src/proxy.rs"]
pub mod proxy;
#[path = "src/session.rs"]
pub mod session;
#[path = "src/transport.rs"]
pub mod transport;
