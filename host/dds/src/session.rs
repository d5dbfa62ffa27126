//! One session's calls of DDS, by its books: a call about an entity that the session didn't make goes no further.
//!
//! Who asks waits for DDS as long as is stated, and no longer. Of a write that is DDS's own promise, and a take never waits: both are made
//! where they are asked for. What DDS promises no time of, to make and to delete, is done in threads.

use crate::books::{Books, Kind};
use crate::domains::{Domains, Seat};
use crate::entities::{Entities, Refused, Settings};
use crate::news::News;
use crate::reaper::Reaper;
use std::ffi::CString;
use std::io;
use std::sync::mpsc::{sync_channel, SendError};
use std::sync::Arc;
use std::thread::{Builder, JoinHandle};
use xrce_agent::Handle;

/// The greatest domain that has ports by the rules of DDSI.
const MOST_DOMAIN: u32 = 232;

pub struct Session<E> {
    id: u8,
    entities: E,
    settings: Settings,
    domains: Arc<Domains>,
    books: Books,
    reaper: Reaper,
    /// The thread of a call that took longer than stated, which may still be under way.
    maker: Option<JoinHandle<()>>,
}

/// An entity that DDS has just made.
struct Fresh {
    handle: Handle,
    seat: Option<Seat>,
}

impl<E: Entities> Session<E> {
    pub fn new(
        id: u8,
        entities: E,
        settings: Settings,
        domains: Arc<Domains>,
        news: fn(News),
    ) -> io::Result<Session<E>> {
        let reaper = Reaper::start(id, entities.clone(), news)?;
        Ok(Session { id, entities, settings, domains, books: Books::default(), reaper, maker: None })
    }

    // What DDS still has counts, also if the session has given it up. Of calls that took too long there is one at a time.
    fn may_make(&self) -> Result<(), Refused> {
        if self.maker.as_ref().is_some_and(|thread| !thread.is_finished()) {
            return Err(Refused("an earlier call is still under way".into()));
        }
        if self.books.len() + self.reaper.pending() < self.settings.most {
            return Ok(());
        }
        Err(Refused(format!("a session has at most {} entities", self.settings.most)))
    }

    // Makes an entity in a thread. If it comes when nobody waits any more, it is deleted there: nobody was told of it.
    fn make(
        &mut self,
        seat: Option<Seat>,
        create: impl FnOnce(&mut E) -> Result<Handle, Refused> + Send + 'static,
    ) -> Result<Fresh, Refused> {
        let (mut entities, wait) = (self.entities.clone(), self.settings.wait);
        // It holds nothing: sending succeeds exactly if somebody waits and takes it.
        let (answer, told) = sync_channel(0);
        let makes = move || {
            let made = create(&mut entities).map(|handle| Fresh { handle, seat });
            if let Err(SendError(Ok(untold))) = answer.send(made) {
                let _ = entities.delete(untold.handle);
            }
        };
        let started = Builder::new().name(format!("makes {}", self.id)).spawn(makes);
        let thread = started.map_err(|error| Refused(format!("no thread: {error}")))?;
        told.recv_timeout(wait).unwrap_or_else(|_| {
            self.maker = Some(thread);
            Err(Refused(format!("it takes longer than {} ms", wait.as_millis())))
        })
    }

    fn keep(&mut self, fresh: Fresh, kind: Kind, within: Option<Handle>) -> Handle {
        self.reaper.count_made();
        self.books.add(fresh.handle, kind, within.unwrap_or(fresh.handle), fresh.seat);
        fresh.handle
    }

    pub fn participant(&mut self, domain: u32) -> Result<Handle, Refused> {
        self.may_make()?;
        if MOST_DOMAIN < domain {
            return Err(Refused(format!("there is no domain {domain}")));
        }
        let most = self.settings.domains;
        let full = || Refused(format!("{most} domains are in use, and domain {domain} isn't one of them"));
        let seat = self.domains.enter(domain).ok_or_else(full)?;
        let fresh = self.make(Some(seat), move |entities| entities.participant(domain))?;
        Ok(self.keep(fresh, Kind::Participant, None))
    }

    pub fn topic(&mut self, participant: Handle, name: CString, type_name: CString) -> Result<Handle, Refused> {
        self.may_make()?;
        own(self.books.is(participant, Kind::Participant), participant)?;
        let fresh = self.make(None, move |entities| {
            let told = |Refused(why)| Refused(format!("{why}, the topic {name:?}"));
            entities.topic(participant, &name, &type_name).map_err(told)
        })?;
        Ok(self.keep(fresh, Kind::Topic, Some(participant)))
    }

    pub fn writer(&mut self, participant: Handle, topic: Handle) -> Result<Handle, Refused> {
        self.may_make()?;
        own(self.books.is_topic_within(topic, participant), topic)?;
        let fresh = self.make(None, move |entities| entities.writer(participant, topic))?;
        Ok(self.keep(fresh, Kind::Writer, Some(participant)))
    }

    pub fn reader(&mut self, participant: Handle, topic: Handle) -> Result<Handle, Refused> {
        self.may_make()?;
        own(self.books.is_topic_within(topic, participant), topic)?;
        let fresh = self.make(None, move |entities| entities.reader(participant, topic))?;
        Ok(self.keep(fresh, Kind::Reader, Some(participant)))
    }

    pub fn write(&mut self, writer: Handle, data: &[u8]) -> Result<(), Refused> {
        own(self.books.is(writer, Kind::Writer), writer)?;
        self.entities.write(writer, data)
    }

    pub fn read(&mut self, reader: Handle) -> Result<Option<Vec<u8>>, Refused> {
        own(self.books.is(reader, Kind::Reader), reader)?;
        self.entities.take(reader)
    }

    /// The entity is out of the session's reach from here on, and goes in its turn. DDS takes along what is in a participant. The agent
    /// deletes none that an object of its session depends on (document 02, W3), so what is still there was made for objects that have
    /// been replaced. It goes first: nothing goes that the books don't know of.
    pub fn delete(&mut self, entity: Handle) -> Result<(), Refused> {
        let goes = self.books.strike(entity);
        own(!goes.is_empty(), entity)?;
        self.reaper.delete(goes, self.settings.deleting())
    }

    /// The session is gone: so is what it made, the last first. Nobody waits for that; the threads that do it end then.
    pub fn end(mut self) -> impl Iterator<Item = JoinHandle<()>> {
        let all = self.books.strike_all();
        [Some(self.reaper.end(all)), self.maker].into_iter().flatten()
    }
}

fn own(is_own: bool, handle: Handle) -> Result<(), Refused> {
    is_own.then_some(()).ok_or_else(|| Refused(format!("the session has no such entity as {handle}")))
}
