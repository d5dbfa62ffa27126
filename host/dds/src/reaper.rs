//! A session's deletions, one after the other, in a thread of their own: DDS waits up to a second for readers that are behind before it
//! lets a writer go, and the session goes on meanwhile.

use crate::books::Made;
use crate::entities::{Entities, Refused};
use crate::news::News;
use std::io;
use std::sync::atomic::{AtomicUsize, Ordering};
use std::sync::mpsc::{channel, sync_channel, Receiver, SendError, Sender, SyncSender};
use std::sync::Arc;
use std::thread::{Builder, JoinHandle};
use std::time::Duration;

type Told = Result<(), Refused>;

struct Batch {
    /// The last is the one that was asked for.
    entities: Vec<Made>,
    /// Who waits to hear of that one, if somebody does. It holds nothing: sending succeeds exactly if somebody takes it.
    answer: Option<SyncSender<Told>>,
}

#[derive(Default)]
struct Counts {
    /// Entities that the session has made.
    made: AtomicUsize,
    /// Those that were handed over and that DDS still has.
    pending: AtomicUsize,
}

/// The side that hands entities over.
pub struct Reaper {
    batches: Sender<Batch>,
    counts: Arc<Counts>,
    thread: JoinHandle<()>,
}

impl Reaper {
    pub fn start<E: Entities>(session: u8, entities: E, news: fn(News)) -> io::Result<Reaper> {
        let (batches, given) = channel();
        let counts = Arc::new(Counts::default());
        let mut deletes = Deletes { session, entities, news, counts: counts.clone(), deleted: 0 };
        let thread = Builder::new().name(format!("deletes {session}")).spawn(move || deletes.until_ended(given))?;
        Ok(Reaper { batches, counts, thread })
    }

    pub fn count_made(&self) {
        self.counts.made.fetch_add(1, Ordering::AcqRel);
    }

    pub fn pending(&self) -> usize {
        self.counts.pending.load(Ordering::Acquire)
    }

    fn take(&self, entities: Vec<Made>, answer: Option<SyncSender<Told>>) {
        self.counts.pending.fetch_add(entities.len(), Ordering::AcqRel);
        // The thread ends no sooner than this does.
        let _ = self.batches.send(Batch { entities, answer });
    }

    /// They go in their turn, whether or not somebody waits: after that time it counts as done.
    pub fn delete(&self, entities: Vec<Made>, wait: Duration) -> Told {
        let (answer, told) = sync_channel(0);
        self.take(entities, Some(answer));
        told.recv_timeout(wait).unwrap_or(Ok(()))
    }

    /// The last ones. The thread ends when all are deleted.
    pub fn end(self, entities: Vec<Made>) -> JoinHandle<()> {
        self.take(entities, None);
        self.thread
    }
}

/// The thread's side.
struct Deletes<E> {
    session: u8,
    entities: E,
    news: fn(News),
    counts: Arc<Counts>,
    deleted: usize,
}

impl<E: Entities> Deletes<E> {
    fn until_ended(&mut self, batches: Receiver<Batch>) {
        for batch in batches {
            self.batch(batch);
        }
        let made = self.counts.made.load(Ordering::Acquire);
        let (session, deleted, left) = (self.session, self.deleted, self.entities.alive());
        (self.news)(News::Cleared { session, made, deleted, left });
    }

    fn batch(&mut self, mut batch: Batch) {
        let asked_for = batch.entities.pop();
        for made in batch.entities {
            let told = self.one(made);
            self.tell(told);
        }
        let told = asked_for.map_or(Ok(()), |made| self.one(made));
        match batch.answer.map(|answer| answer.send(told.clone())) {
            Some(Ok(())) => {}
            Some(Err(SendError(untold))) => self.tell(untold),
            None => self.tell(told),
        }
    }

    fn one(&mut self, made: Made) -> Told {
        let told = self.entities.delete(made.handle);
        self.deleted += usize::from(told.is_ok());
        self.counts.pending.fetch_sub(1, Ordering::AcqRel);
        if told.is_err() {
            // DDS has it still, so it keeps its place in its domain.
            std::mem::forget(made);
        }
        told
    }

    // A refusal that nobody else tells of.
    fn tell(&self, told: Told) {
        if let Err(Refused(why)) = told {
            (self.news)(News::Refused { session: self.session, call: "delete_entity", why });
        }
    }
}
