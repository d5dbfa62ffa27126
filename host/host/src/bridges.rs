//! The bridges that a host can have: in memory, or over DDS. Either knows whose calls it makes, and clears away what a session made.

use crate::args::{BridgeKind, Options};
use crate::log;
use crate::memory::Memory;
use dds::{Cyclone, Dds, Entities, News};
use std::time::Duration;
use xrce_agent::Bridge;

/// How long the host's end waits for DDS to delete what is left.
const CLOSING: Duration = Duration::from_secs(5);

pub trait SessionBridge: Bridge {
    /// The calls that follow belong to that session.
    fn serve_session(&mut self, session: u8);
    /// A session is gone: so is what it made.
    fn end_session(&mut self, session: u8);
    /// The host ends, and all sessions with it.
    fn close(&mut self);
}

impl SessionBridge for Memory {
    fn serve_session(&mut self, session: u8) {
        Memory::serve_session(self, session);
    }

    fn end_session(&mut self, session: u8) {
        Memory::end_session(self, session);
    }

    fn close(&mut self) {}
}

impl<E: Entities> SessionBridge for Dds<E> {
    fn serve_session(&mut self, session: u8) {
        Dds::serve_session(self, session);
    }

    fn end_session(&mut self, session: u8) {
        Dds::end_session(self, session);
    }

    fn close(&mut self) {
        if !Dds::close(self, CLOSING) {
            log!(Warn, "DDS hasn't deleted everything within {} s", CLOSING.as_secs());
        }
        eprintln!("{} entities left in DDS", self.alive());
    }
}

pub fn open(options: &Options) -> Result<Box<dyn SessionBridge>, String> {
    if options.bridge == BridgeKind::Memory {
        return Ok(Box::new(Memory::new(options.bridge_fails)));
    }
    let settings = options.dds;
    let cyclone = Cyclone::new(settings).map_err(|why| format!("there is no bridge to DDS: {why}"))?;
    let kind = if settings.quality.best_effort { "best effort" } else { "reliable" };
    let (offset, history, wait) = (settings.domain_offset, settings.quality.history, settings.wait.as_millis());
    log!(Info, "bridge to DDS: domains from {offset} on, {kind}, last {history} samples, at most {wait} ms a call");
    Ok(Box::new(Dds::new(cyclone, settings, tell)))
}

fn tell(news: News) {
    match news {
        News::Cleared { .. } => log!(Info, "{news}"),
        _ => log!(Warn, "{news}"),
    }
}
