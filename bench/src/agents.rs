//! What a row does to an agent, the port or the original: one trait, so that each row is written once for both.

/// The session timeout of both agents in milliseconds.
pub const TIMEOUT: u64 = 30_000;

/// The sample that both bridges read.
pub const SAMPLE: [u8; 16] = *b"sixteen bytes...";

pub trait Agent {
    /// An agent without sessions, for up to 255 of them.
    fn new() -> Self;

    /// From here on it is `time`.
    fn set_time(&mut self, time: u64);

    /// From here on the time of a datagram is read from the machine's clock: by the original itself, by the port's host.
    fn read_clock(&mut self);

    /// Hands in a datagram, answers its bridge calls, and gives the replies to `sent`.
    fn deliver(&mut self, datagram: &[u8], sent: &mut impl FnMut(&[u8]));

    /// Ends the sessions that are expired, and gives their ids to `sent`.
    fn sweep(&mut self, sent: &mut impl FnMut(&[u8]));

    /// Ends the session `id`, which must be the only expired one: the original's agent ends sessions by a sweep alone.
    fn end(&mut self, id: u8, sent: &mut impl FnMut(&[u8]));

    /// How many handles the bridge has given so far.
    fn handles(&self) -> u32;
}
