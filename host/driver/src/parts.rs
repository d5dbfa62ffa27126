//! Writes that are too long for one datagram (document 02, W6). FRAGMENTs carry them, and the agent reads the message once the last
//! missing one has come.

use crate::client::{Client, Wrong};
use wire::{in_parts, Body, Datagram};

impl Client {
    /// Sends all parts, and all again, until the agent says that it has written. If they were sent again, some may have come when
    /// the message was complete already: the agent would take them for parts of the next one, so they are cleared away.
    pub fn write_in_parts(&mut self, writer: u16, submessages: &[u8], size: usize) -> Result<(), Wrong> {
        let parts = in_parts(self.session(), 0, submessages, size).expect("a message within 64 parts");
        let parts: Vec<Vec<u8>> = parts.into_iter().map(Datagram::bytes).collect();
        let before = self.resent;
        self.expect_ok(&parts, writer, "WRITE_DATA in parts")?;
        if self.resent > before {
            self.clear_parts(parts.len())?;
        }
        Ok(())
    }

    // A message of another total, whole in one datagram, empties the agent's store and leaves it empty; its HEARTBEAT is answered.
    fn clear_parts(&mut self, total: usize) -> Result<(), Wrong> {
        let heartbeat = Datagram::new(0, 0).heartbeat(0, 0).submessages();
        let other = if total == 2 { 3 } else { 2 };
        let whole = (1..other).fold(Datagram::new(self.session(), 0), |datagram, at| datagram.fragment(at, other, &[]));
        let session = self.session();
        self.request(&[whole.fragment(0, other, &heartbeat).bytes()], "a HEARTBEAT in parts", |reply| {
            matches!(reply.body, Body::Acknack { .. }).then_some(()).filter(|()| reply.session == session)
        })
    }
}
