//! The bridge: each call is made by the session that it belongs to.

use crate::domains::Domains;
use crate::entities::{Entities, Refused, Settings};
use crate::news::News;
use crate::session::Session;
use std::collections::HashMap;
use std::ffi::CString;
use std::sync::Arc;
use std::thread::{sleep, JoinHandle};
use std::time::{Duration, Instant};
use xrce_agent::{Bridge, Failed, Handle};

/// The agent's bridge over a DDS.
pub struct Dds<E> {
    entities: E,
    settings: Settings,
    domains: Arc<Domains>,
    news: fn(News),
    session: u8,
    sessions: HashMap<u8, Session<E>>,
    /// Threads of sessions that are gone, which may still delete.
    ending: Vec<JoinHandle<()>>,
}

impl<E: Entities> Dds<E> {
    /// A bridge without sessions. `news` is called from several threads.
    pub fn new(entities: E, settings: Settings, news: fn(News)) -> Self {
        let domains = Domains::new(settings.domains);
        Dds { entities, settings, domains, news, session: 0, sessions: HashMap::new(), ending: Vec::new() }
    }

    /// The calls that follow belong to that session.
    pub fn serve_session(&mut self, session: u8) {
        self.session = session;
    }

    /// A session is gone, and its threads delete what it made. Nobody waits for that, and a new session of the same id has new books.
    pub fn end_session(&mut self, session: u8) {
        self.ending.extend(self.sessions.remove(&session).into_iter().flat_map(Session::end));
        self.ending.retain(|thread| !thread.is_finished());
    }

    /// All sessions are gone. Waits up to that long until all is deleted, and says whether it is.
    pub fn close(&mut self, wait: Duration) -> bool {
        let until = Instant::now() + wait;
        self.ending.extend(self.sessions.drain().flat_map(|(_, session)| session.end()));
        while !self.ending.iter().all(JoinHandle::is_finished) {
            if until <= Instant::now() {
                return false;
            }
            sleep(Duration::from_millis(1));
        }
        true
    }

    /// The entities that this process has in DDS, by its own count.
    pub fn alive(&self) -> u32 {
        self.entities.alive()
    }

    fn session(&mut self) -> Result<&mut Session<E>, Refused> {
        if !self.sessions.contains_key(&self.session) {
            let (entities, domains) = (self.entities.clone(), self.domains.clone());
            let session = Session::new(self.session, entities, self.settings, domains, self.news)
                .map_err(|error| Refused(format!("no thread: {error}")))?;
            self.sessions.insert(self.session, session);
        }
        self.sessions.get_mut(&self.session).ok_or_else(|| Refused("no session".into()))
    }

    fn does<T>(
        &mut self,
        call: &'static str,
        act: impl FnOnce(&mut Session<E>) -> Result<T, Refused>,
    ) -> Result<T, Failed> {
        self.session().and_then(act).map_err(|Refused(why)| {
            (self.news)(News::Refused { session: self.session, call, why });
            Failed
        })
    }
}

// A name of DDS ends at its first byte 0: one that has such a byte inside would be taken for another.
fn name(bytes: &[u8]) -> Result<CString, Refused> {
    CString::new(bytes)
        .map_err(|_| Refused(format!("a name can't have a byte 0 in it, as '{}' has", bytes.escape_ascii())))
}

impl<E: Entities> Bridge for Dds<E> {
    fn create_participant(&mut self, domain: u16) -> Result<Handle, Failed> {
        let domain = u32::from(domain) + u32::from(self.settings.domain_offset);
        self.does("create_participant", |session| session.participant(domain))
    }

    fn create_topic(&mut self, participant: Handle, topic: &[u8], type_name: &[u8]) -> Result<Handle, Failed> {
        self.does("create_topic", |session| session.topic(participant, name(topic)?, name(type_name)?))
    }

    fn create_writer(&mut self, participant: Handle, topic: Handle) -> Result<Handle, Failed> {
        self.does("create_writer", |session| session.writer(participant, topic))
    }

    fn create_reader(&mut self, participant: Handle, topic: Handle) -> Result<Handle, Failed> {
        self.does("create_reader", |session| session.reader(participant, topic))
    }

    fn write_data(&mut self, writer: Handle, data: &[u8]) -> Result<(), Failed> {
        self.does("write_data", |session| session.write(writer, data))
    }

    fn read_data(&mut self, reader: Handle) -> Result<Option<Vec<u8>>, Failed> {
        self.does("read_data", |session| session.read(reader))
    }

    fn delete_entity(&mut self, entity: Handle) -> Result<(), Failed> {
        self.does("delete_entity", |session| session.delete(entity))
    }
}

#[cfg(test)]
#[path = "bridge_tests.rs"]
mod tests;
