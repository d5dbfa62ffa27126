//! What a row asks of the wire layer, the port's or the original's: one trait, so that each row is written once.

/// A message to be written: a header of session 1 and stream 0, and one submessage.
pub enum Message {
    Status { object: u16 },
    Data { reader: u16, data: Vec<u8> },
}

pub trait Wire {
    /// Ready to write that message, if any, or to take the fragments of a payload.
    fn new() -> Self;

    /// Has `message` in its own form from here on.
    fn prepare(&mut self, message: &Message);

    /// Reads a datagram whole, header and every submessage.
    fn parse(&mut self, datagram: &[u8]);

    /// What `parse` reads, in one form for both: the header, then each submessage's id, number and data.
    fn described(&mut self, datagram: &[u8]) -> Vec<u8>;

    /// Reads a string that stands at the start of these bytes.
    fn string(&mut self, bytes: &[u8], sent: &mut impl FnMut(&[u8]));

    /// Writes the prepared message.
    fn write(&mut self, sent: &mut impl FnMut(&[u8]));

    /// Cuts a payload into fragments with bodies of up to `size` bytes; all of them are there at the end.
    fn cut(&mut self, payload: &[u8], size: usize, sent: &mut impl FnMut(&[u8]));

    /// Puts the bodies of fragments together, given in order and none of them over `size` bytes.
    fn reassemble(&mut self, bodies: &[Vec<u8>], size: usize, sent: &mut impl FnMut(&[u8]));
}
