//! The witness's side of the stream that it reads on (document 02, W5): DATA is numbered without a gap, and what it hasn't
//! acknowledged comes again, byte for byte, when it asks.

use wire::{Datagram, Received};

/// The stream of the witness's reads.
pub const STREAM: u8 = 5;
/// With so many unacknowledged it asks for all of them, before the agent's 16 places are full.
const MANY: usize = 12;

#[derive(Default)]
pub struct Reads {
    received: Received,
    // The replies in turn that aren't acknowledged, from number `first` on.
    first: u16,
    kept: Vec<Vec<u8>>,
}

impl Reads {
    /// Takes a DATA reply, whole. One that has come before must be the same bytes.
    pub fn take(&mut self, sequence: u16, reply: &[u8]) -> Result<(), String> {
        if self.received.take(sequence, reply) {
            return Ok(());
        }
        match self.kept.get(usize::from(sequence.wrapping_sub(self.first))) {
            Some(kept) if kept != reply => Err(format!("number {sequence} came again with other bytes")),
            _ => Ok(()),
        }
    }

    /// The data of the reply whose turn it is.
    pub fn in_turn(&mut self) -> Option<Vec<u8>> {
        let reply = self.received.in_turn()?;
        let data = reply[10..].to_vec();
        self.kept.push(reply);
        Some(data)
    }

    pub fn are_many(&self) -> bool {
        self.kept.len() >= MANY
    }

    /// Asks for all that isn't acknowledged.
    pub fn asking(&self, session: u8) -> Vec<u8> {
        let bitmap = ((1u32 << self.kept.len()) - 1) as u16;
        Datagram::new(session, STREAM).acknack(self.first, bitmap).bytes()
    }

    /// The replies that must come then, in this order.
    pub fn wanted(&self) -> &[Vec<u8>] {
        &self.kept
    }

    /// Whether that is the number of one of them.
    pub fn is_wanted(&self, sequence: u16) -> bool {
        usize::from(sequence.wrapping_sub(self.first)) < self.kept.len()
    }

    /// Acknowledges all that has come in turn, and asks for what is missing and for the expected number.
    pub fn acknowledging(&mut self, session: u8) -> Datagram {
        self.first = self.received.expected();
        self.kept.clear();
        Datagram::new(session, STREAM).acknack(self.first, self.received.missing() | 1)
    }
}
