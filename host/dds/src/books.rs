//! What one session made in DDS and hasn't given up, in the order in which it was made. A handle that isn't here is none of the session's
//! business, whatever it stands for elsewhere: DDS gives the number of a deleted entity to another one some day.

use crate::domains::Seat;
use xrce_agent::Handle;

#[derive(Clone, Copy, Debug, PartialEq, Eq)]
pub enum Kind {
    Participant,
    Topic,
    Writer,
    Reader,
}

#[derive(Debug)]
pub struct Made {
    pub handle: Handle,
    kind: Kind,
    /// The participant that it was made in; its own handle for a participant.
    within: Handle,
    /// A participant's place in its domain, which goes with it.
    _seat: Option<Seat>,
}

#[derive(Debug, Default)]
pub struct Books(Vec<Made>);

impl Books {
    pub fn len(&self) -> usize {
        self.0.len()
    }

    pub fn add(&mut self, handle: Handle, kind: Kind, within: Handle, seat: Option<Seat>) {
        self.0.push(Made { handle, kind, within, _seat: seat });
    }

    pub fn is(&self, handle: Handle, kind: Kind) -> bool {
        self.0.iter().any(|made| (made.handle, made.kind) == (handle, kind))
    }

    /// Whether it is a topic of that participant.
    pub fn is_topic_within(&self, topic: Handle, participant: Handle) -> bool {
        self.0.iter().any(|made| (made.handle, made.kind, made.within) == (topic, Kind::Topic, participant))
    }

    /// Strikes out an entity, and of a participant what was made in it: all that goes with it, the last made first. Nothing if the
    /// session has no such entity.
    pub fn strike(&mut self, handle: Handle) -> Vec<Made> {
        let goes = |made: &mut Made| made.handle == handle || made.within == handle;
        last_first(self.0.extract_if(.., goes).collect())
    }

    /// Strikes out everything.
    pub fn strike_all(&mut self) -> Vec<Made> {
        last_first(std::mem::take(&mut self.0))
    }
}

// An entity is made after those that it was made with, so in this order it goes before them.
fn last_first(mut made: Vec<Made>) -> Vec<Made> {
    made.reverse();
    made
}

#[cfg(test)]
mod tests {
    use super::*;

    #[test]
    fn what_a_session_made_and_in_which_order_it_goes() {
        let [p, t, w, q, u] = [5, 2, 9, 3, 1].map(Handle);
        let mut books = Books::default();
        for (handle, kind, within) in [
            (p, Kind::Participant, p),
            (t, Kind::Topic, p),
            (q, Kind::Participant, q),
            (u, Kind::Topic, q),
            (w, Kind::Writer, p),
        ] {
            books.add(handle, kind, within, None);
        }
        assert!(books.is(w, Kind::Writer) && !books.is(w, Kind::Reader) && !books.is(Handle(7), Kind::Writer));
        assert!(books.is_topic_within(t, p) && !books.is_topic_within(t, q) && !books.is_topic_within(w, p));
        let handles = |made: Vec<Made>| made.iter().map(|one| one.handle).collect::<Vec<_>>();
        assert_eq!(handles(books.strike(Handle(7))), []);
        assert_eq!(handles(books.strike(u)), [u]);
        assert_eq!(handles(books.strike(p)), [w, t, p]);
        assert_eq!(handles(books.strike(t)), []);
        assert_eq!((books.len(), handles(books.strike_all()), books.len()), (1, vec![q], 0));
    }
}
