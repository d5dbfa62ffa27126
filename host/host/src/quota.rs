//! Which session made which entity. A session ends without bridge calls ("its lists are gone", document 01), and a CREATE
//! that replaces an object makes none for the older one, so the host remembers here what it has to clear away.

use std::collections::HashMap;
use xrce_agent::Handle;

/// A session lists at most 32 objects; twice that leaves room for entities whose object was replaced.
pub const MOST: usize = 64;

#[derive(Default)]
pub struct Made(HashMap<u8, Vec<Handle>>);

impl Made {
    /// Whether the session may make one more.
    pub fn may(&self, session: u8) -> bool {
        self.0.get(&session).is_none_or(|made| made.len() < MOST)
    }

    pub fn add(&mut self, session: u8, handle: Handle) {
        self.0.entry(session).or_default().push(handle);
    }

    pub fn drop_one(&mut self, session: u8, handle: Handle) {
        if let Some(made) = self.0.get_mut(&session) {
            made.retain(|one| *one != handle);
        }
    }

    /// The session is gone: what it made, the last first. An entity is made after those that it was made with, so in this
    /// order it goes before them.
    pub fn take(&mut self, session: u8) -> impl Iterator<Item = Handle> {
        self.0.remove(&session).unwrap_or_default().into_iter().rev()
    }
}
