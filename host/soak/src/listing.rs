//! The listing of a session by another way than the agent's: sorted by kind and number.

use xrce_agent::lent::{ObjectRecord, SessionRow, OBJECTS, SESSIONS};

/// Records of a session.
const MOST: usize = 32;

/// What a call of the listing must answer.
#[derive(Debug)]
pub enum Kept {
    Listed(Vec<u16>),
    Refused(u64),
    /// Anything that stays inside what was lent: no agent leaves such a row or such records.
    Altered,
}

/// The listing over these tables with an output of that many numbers.
pub fn listing(sessions: &[SessionRow], objects: &[ObjectRecord], room: usize, id: u8) -> Kept {
    if sessions.len() < SESSIONS || objects.len() < OBJECTS {
        return Kept::Refused(16);
    }
    let [live, _, _, used, ..] = sessions[usize::from(id)];
    let Some(used) = usize::try_from(used).ok().filter(|used| *used <= MOST) else { return Kept::Refused(16) };
    let mut held = objects[MOST * usize::from(id)..][..used].to_vec();
    held.sort_by_key(|object| object.number);
    let twice = held.windows(2).any(|pair| pair[0].number == pair[1].number);
    let kinds = held.iter().all(|object| (1..=6).contains(&object.kind));
    if twice || !kinds || (live == 0 && used > 0) || (live != 0 && id == 0) {
        return Kept::Altered;
    }
    if room < used {
        return Kept::Refused(13);
    }
    // A stable sort: numbers ascend within a kind.
    held.sort_by_key(|object| std::cmp::Reverse(object.kind));
    Kept::Listed(held.iter().map(|object| object.number).collect())
}
