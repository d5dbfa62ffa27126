//! A DDS of the tests: it is slow or refuses where it is told to, and is quick to give the number of a deleted entity to another one.

use crate::entities::{Entities, Refused};
use std::collections::BTreeMap;
use std::ffi::CStr;
use std::sync::{Arc, Mutex};
use std::thread::sleep;
use std::time::Duration;
use xrce_agent::Handle;

#[derive(Default)]
pub struct World {
    /// Each entity with the participant that it is in.
    pub alive: BTreeMap<Handle, Handle>,
    /// What was deleted by name, in that order.
    pub deleted: Vec<Handle>,
    pub written: Vec<Vec<u8>>,
    /// What the next read takes.
    pub sample: Option<Vec<u8>>,
    /// The next call that takes time, and how long.
    pub slow: Option<(&'static str, Duration)>,
    /// The next call that is refused.
    pub refuses: Option<&'static str>,
}

#[derive(Clone, Default)]
pub struct Pretend(pub Arc<Mutex<World>>);

impl Pretend {
    fn begins(&self, call: &str) -> Result<(), Refused> {
        let slow = self.0.lock().unwrap().slow.take_if(|(its, _)| *its == call);
        if let Some((_, time)) = slow {
            sleep(time);
        }
        match self.0.lock().unwrap().refuses.take_if(|its| *its == call) {
            Some(_) => Err(Refused("told to".into())),
            None => Ok(()),
        }
    }

    // The least number that is free.
    fn make(&self, within: Option<Handle>) -> Result<Handle, Refused> {
        let alive = &mut self.0.lock().unwrap().alive;
        let handle = (1..).map(Handle).find(|handle| !alive.contains_key(handle)).unwrap();
        alive.insert(handle, within.unwrap_or(handle));
        Ok(handle)
    }
}

impl Entities for Pretend {
    fn participant(&mut self, _domain: u32) -> Result<Handle, Refused> {
        self.begins("participant")?;
        self.make(None)
    }

    fn topic(&mut self, participant: Handle, name: &CStr, _type_name: &CStr) -> Result<Handle, Refused> {
        self.begins("topic")?;
        if name.is_empty() {
            return Err(Refused("no name".into()));
        }
        self.make(Some(participant))
    }

    fn writer(&mut self, participant: Handle, _topic: Handle) -> Result<Handle, Refused> {
        self.begins("writer")?;
        self.make(Some(participant))
    }

    fn reader(&mut self, participant: Handle, _topic: Handle) -> Result<Handle, Refused> {
        self.begins("reader")?;
        self.make(Some(participant))
    }

    fn write(&mut self, _writer: Handle, data: &[u8]) -> Result<(), Refused> {
        self.begins("write")?;
        self.0.lock().unwrap().written.push(data.to_vec());
        Ok(())
    }

    fn take(&mut self, _reader: Handle) -> Result<Option<Vec<u8>>, Refused> {
        self.begins("take")?;
        Ok(self.0.lock().unwrap().sample.take())
    }

    fn delete(&mut self, entity: Handle) -> Result<(), Refused> {
        self.begins("delete")?;
        let mut world = self.0.lock().unwrap();
        world.deleted.push(entity);
        if world.alive.remove(&entity).is_none() {
            return Err(Refused("no such entity".into()));
        }
        world.alive.retain(|_, within| *within != entity);
        Ok(())
    }

    fn alive(&self) -> u32 {
        self.0.lock().unwrap().alive.len() as u32
    }
}
