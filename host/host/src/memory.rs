//! The bridge in memory: a writer's samples reach all readers of the same topic name.

use crate::quota::Made;
use std::collections::{HashMap, VecDeque};
use std::rc::Rc;
use xrce_agent::{Bridge, Failed, Handle};

/// What a reader holds at most; a sample too many drops the oldest.
pub const SAMPLES: usize = 64;
pub const BYTES: usize = 131_072;

enum Entity {
    Participant,
    Topic(Rc<[u8]>),
    Writer(Rc<[u8]>),
    Reader(Rc<[u8]>, Queue),
}

#[derive(Default)]
struct Queue {
    samples: VecDeque<Rc<[u8]>>,
    bytes: usize,
}

impl Queue {
    fn push(&mut self, sample: Rc<[u8]>) {
        self.bytes += sample.len();
        self.samples.push_back(sample);
        while self.samples.len() > SAMPLES || self.bytes > BYTES {
            self.pop();
        }
    }

    fn pop(&mut self) -> Option<Rc<[u8]>> {
        let sample = self.samples.pop_front()?;
        self.bytes -= sample.len();
        Some(sample)
    }
}

/// The bridge. Every entity belongs to the session whose call made it, and goes with it.
#[derive(Default)]
pub struct Memory {
    entities: HashMap<Handle, Entity>,
    readers: HashMap<Rc<[u8]>, Vec<Handle>>,
    made: Made,
    session: u8,
    last: u32,
    calls: u64,
    fails: u64,
}

impl Memory {
    /// A bridge in which every `fails`-th call fails; none for 0.
    pub fn new(fails: u64) -> Self {
        Memory { fails, ..Memory::default() }
    }

    /// The calls that follow belong to that session.
    pub fn serve_session(&mut self, session: u8) {
        self.session = session;
    }

    /// A session is gone: so is what it made.
    pub fn end_session(&mut self, session: u8) {
        for handle in self.made.take(session) {
            self.forget(handle);
        }
    }

    fn count(&mut self) -> Result<(), Failed> {
        self.calls += 1;
        if self.fails != 0 && self.calls.is_multiple_of(self.fails) {
            return Err(Failed);
        }
        Ok(())
    }

    // The next number that isn't in use. There are fewer entities than numbers.
    fn free_handle(&mut self) -> Handle {
        loop {
            self.last = self.last.wrapping_add(1);
            if self.last != 0 && !self.entities.contains_key(&Handle(self.last)) {
                return Handle(self.last);
            }
        }
    }

    fn make(&mut self, entity: Entity) -> Result<Handle, Failed> {
        if !self.made.may(self.session) {
            return Err(Failed);
        }
        let handle = self.free_handle();
        self.entities.insert(handle, entity);
        self.made.add(self.session, handle);
        Ok(handle)
    }

    fn participant(&self, handle: Handle) -> Result<(), Failed> {
        if matches!(self.entities.get(&handle), Some(Entity::Participant)) {
            return Ok(());
        }
        Err(Failed)
    }

    fn topic(&self, handle: Handle) -> Result<Rc<[u8]>, Failed> {
        match self.entities.get(&handle) {
            Some(Entity::Topic(name)) => Ok(name.clone()),
            _ => Err(Failed),
        }
    }

    fn forget(&mut self, handle: Handle) -> bool {
        let Some(entity) = self.entities.remove(&handle) else { return false };
        if let Entity::Reader(topic, _) = entity {
            if let Some(readers) = self.readers.get_mut(&topic) {
                readers.retain(|one| *one != handle);
                if readers.is_empty() {
                    self.readers.remove(&topic);
                }
            }
        }
        true
    }
}

impl Bridge for Memory {
    fn create_participant(&mut self, _domain: u16) -> Result<Handle, Failed> {
        self.count()?;
        self.make(Entity::Participant)
    }

    fn create_topic(&mut self, participant: Handle, name: &[u8], _type_name: &[u8]) -> Result<Handle, Failed> {
        self.count()?;
        self.participant(participant)?;
        self.make(Entity::Topic(name.into()))
    }

    fn create_writer(&mut self, participant: Handle, topic: Handle) -> Result<Handle, Failed> {
        self.count()?;
        self.participant(participant)?;
        let topic = self.topic(topic)?;
        self.make(Entity::Writer(topic))
    }

    fn create_reader(&mut self, participant: Handle, topic: Handle) -> Result<Handle, Failed> {
        self.count()?;
        self.participant(participant)?;
        let topic = self.topic(topic)?;
        let handle = self.make(Entity::Reader(topic.clone(), Queue::default()))?;
        self.readers.entry(topic).or_default().push(handle);
        Ok(handle)
    }

    fn write_data(&mut self, writer: Handle, data: &[u8]) -> Result<(), Failed> {
        self.count()?;
        let Some(Entity::Writer(topic)) = self.entities.get(&writer) else { return Err(Failed) };
        let Some(readers) = self.readers.get(topic) else { return Ok(()) };
        let sample: Rc<[u8]> = data.into();
        for reader in readers {
            if let Some(Entity::Reader(_, queue)) = self.entities.get_mut(reader) {
                queue.push(sample.clone());
            }
        }
        Ok(())
    }

    fn read_data(&mut self, reader: Handle) -> Result<Option<Vec<u8>>, Failed> {
        self.count()?;
        match self.entities.get_mut(&reader) {
            Some(Entity::Reader(_, queue)) => Ok(queue.pop().map(|sample| sample.to_vec())),
            _ => Err(Failed),
        }
    }

    fn delete_entity(&mut self, entity: Handle) -> Result<(), Failed> {
        self.count()?;
        self.made.drop_one(self.session, entity);
        if self.forget(entity) {
            return Ok(());
        }
        Err(Failed)
    }
}

#[cfg(test)]
#[path = "memory_tests.rs"]
mod tests;
