//! Reads on a stream other than 0 (document 02, W5). The agent numbers its DATA there and holds it until it is acknowledged: what
//! gets lost on the way is asked for again, and comes byte for byte.

use crate::client::{Client, Wrong, AGAIN, LIMIT};
use std::time::Instant;
use wire::{Body, Datagram, Reply};

/// What a reply means for a read.
enum Step {
    /// Data whose turn it is has come.
    Ready,
    /// Data has come before its turn: what is missing is asked for.
    Gap,
    /// The reader has none.
    None,
    /// The read can't be done.
    Refused(u8),
    /// A reply to something else, or DATA that has come before.
    Other,
}

impl Client {
    /// One sample, or `None` if the reader has none. If no reply comes, it may be the reply that got lost or the request: so a
    /// repeat of the expected number is asked for and the read sent again, in turns.
    pub fn read_numbered(&mut self, reader: u16) -> Result<Option<Vec<u8>>, Wrong> {
        let start = Instant::now();
        let mut asks = false;
        while start.elapsed() < LIMIT {
            if let Some(sample) = self.received.in_turn() {
                return Ok(Some(sample));
            }
            if asks {
                self.ask_again(self.received.missing() | 1)?;
            } else {
                self.send(&self.reading(reader))?;
            }
            match self.until_told(reader)? {
                Some(Step::None) if self.received.missing() == 0 => return Ok(None),
                // What came before its turn is there: first what is missing.
                Some(Step::None) => asks = true,
                Some(Step::Refused(code)) => return Err(Wrong::Status("READ_DATA".into(), code)),
                Some(_) => {}
                None => {
                    self.resent += u64::from(asks);
                    asks = !asks;
                }
            }
        }
        Err(Wrong::Missing("READ_DATA".into()))
    }

    // The read, led by an ACKNACK of all that has come: so what the agent holds of this stream never fills its 16 places.
    fn reading(&self, reader: u16) -> Vec<u8> {
        let acknowledged = Datagram::new(self.session(), self.stream).acknack(self.received.expected(), 0);
        acknowledged.read_data(reader).bytes()
    }

    // Asks for numbers from the expected one on; what there is of them comes in the order of their bits.
    fn ask_again(&mut self, bitmap: u16) -> Result<(), Wrong> {
        self.asked += 1;
        let asking = Datagram::new(self.session(), self.stream).acknack(self.received.expected(), bitmap);
        self.send(&asking.bytes())
    }

    // What replies say until one says enough, or none has come in time.
    fn until_told(&mut self, reader: u16) -> Result<Option<Step>, Wrong> {
        let until = Instant::now() + AGAIN;
        while let Some(len) = self.receive(until)? {
            match self.step(len, reader)? {
                Step::Gap => self.ask_again(self.received.missing())?,
                Step::Other => {}
                told => return Ok(Some(told)),
            }
        }
        Ok(None)
    }

    fn step(&mut self, len: usize, wanted: u16) -> Result<Step, Wrong> {
        let bytes = &self.inbox[..len];
        let reply = Reply::read(bytes).ok_or_else(|| Wrong::Unread("READ_DATA".into(), bytes.to_vec()))?;
        if (reply.session, reply.stream) != (self.session, self.stream) {
            return Ok(Step::Other);
        }
        Ok(match reply.body {
            Body::Data { reader, data } if reader == wanted => match self.received.take(reply.sequence, data) {
                false => Step::Other,
                true if reply.sequence == self.received.expected() => Step::Ready,
                true => Step::Gap,
            },
            Body::Status { object, code: wire::OK } if object == wanted => Step::None,
            Body::Status { object, code } if object == wanted => Step::Refused(code),
            _ => Step::Other,
        })
    }
}
