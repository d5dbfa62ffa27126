//! The listing of a session (document 02, W3). The original has none, so it is taken off the original's tables.

use hdds_xrce::session::{SessionTable, XrceObject};
use std::cmp::Reverse;

/// The objects of a session in the order in which they can be taken down: kind 6 down to 1, numbers ascending within a kind.
/// An id that isn't live has none.
pub fn listing(table: &SessionTable, id: u8) -> Vec<&XrceObject> {
    let Some(session) = table.get(id) else { return Vec::new() };
    let mut objects: Vec<&XrceObject> = session.objects.values().collect();
    objects.sort_by_key(|object| object.object_id);
    objects.sort_by_key(|object| Reverse(object.kind.as_u8()));
    objects
}

/// The listing as REPLAY.md prints it.
pub fn listing_line(table: &SessionTable, id: u8) -> String {
    listing(table, id).iter().fold("listed".to_string(), |line, object| format!("{line} {}", object.object_id))
}
