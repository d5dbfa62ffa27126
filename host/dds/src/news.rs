//! What the bridge tells its host beside its answers, for the log.

use std::fmt;

/// News of a session.
#[derive(Clone, Debug, PartialEq, Eq)]
#[allow(missing_docs)]
pub enum News {
    /// A call wasn't done, and why. It was answered as failed, unless nobody waited any more.
    Refused { session: u8, call: &'static str, why: String },
    /// A session that ended has been cleared away: so many entities it made in its life, so many have been deleted, and so many are
    /// left in DDS by its own count, those of all sessions together.
    Cleared { session: u8, made: usize, deleted: usize, left: u32 },
}

impl fmt::Display for News {
    fn fmt(&self, f: &mut fmt::Formatter<'_>) -> fmt::Result {
        match self {
            News::Refused { session, call, why } => write!(f, "session {session}: {call} failed: {why}"),
            News::Cleared { session, made, deleted, left } => {
                write!(f, "session {session}: made {made} entities, deleted {deleted}; {left} left in DDS")
            }
        }
    }
}
