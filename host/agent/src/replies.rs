//! Replies that stand one behind the other, cut apart.

use crate::records::REBUILT;

/// The replies in the first bytes of an output: `replies(&out[..wrote])`. Each is one submessage behind a header, 8
/// bytes and its payload; the payload's length stands at bytes 6 and 7, low byte first.
pub fn replies(wrote: &[u8]) -> Replies<'_> {
    Replies { rest: wrote }
}

/// See [`replies`].
#[derive(Clone, Debug)]
pub struct Replies<'a> {
    rest: &'a [u8],
}

impl<'a> Iterator for Replies<'a> {
    type Item = &'a [u8];

    fn next(&mut self) -> Option<&'a [u8]> {
        let length = u16::from_le_bytes([*self.rest.get(6)?, *self.rest.get(7)?]);
        let (reply, rest) = self.rest.split_at_checked(8 + usize::from(length))?;
        self.rest = rest;
        Some(reply)
    }
}

/// An output that is long enough for every reply to that datagram, and to an answer with a sample of that length. A submessage
/// has at least 6 bytes, and its reply at most 12, or 10 and the sample; but an ACKNACK on a stream other than 0 is answered by
/// a message of up to 1,024 bytes for each bit of its bitmap. So 8 bytes can ask for 16,384: a host may want to look at this
/// number before it hands the datagram in.
///
/// A FRAGMENT may complete a message of up to 32,768 bytes, whose submessages are answered too. The ACKNACKs among them are the
/// one thing that nobody can count beforehand: a call that is refused as 13 for their sake changed nothing, and may be made
/// again with a longer output.
pub fn room(datagram: &[u8], sample_len: usize) -> usize {
    let (asked, fragments) = asked_for(datagram);
    let rebuilt = if fragments { 2 * REBUILT } else { 0 };
    2 * datagram.len() + sample_len + 12 + rebuilt + 1024 * asked
}

/// How many messages the datagram's ACKNACKs ask for at most, and whether it holds a FRAGMENT. What doesn't read asks for
/// nothing: its datagram is refused.
fn asked_for(datagram: &[u8]) -> (usize, bool) {
    let (mut asked, mut fragments) = (0, false);
    let Some(([_, stream, _, _], mut rest)) = datagram.split_first_chunk() else { return (asked, fragments) };
    while let Some(([id, _, low, high], behind)) = rest.split_first_chunk() {
        let length = usize::from(u16::from_le_bytes([*low, *high]));
        let Some((payload, next)) = behind.split_at_checked(length) else { break };
        match (*id, payload, *stream) {
            (0x0E, [_, _, low, high, ..], 1..) => asked += u16::from_le_bytes([*low, *high]).count_ones() as usize,
            (0x0F, ..) => fragments = true,
            _ => {}
        }
        rest = next;
    }
    (asked, fragments)
}

#[cfg(test)]
mod tests {
    use super::*;
    use wire::Datagram;

    #[test]
    fn acknacks_ask_for_as_many_messages_as_their_bitmaps_have_bits() {
        for (stream, messages) in [(0, 0), (1, 19), (255, 19)] {
            let datagram = Datagram::new(1, stream).acknack(5, 0xFFFF).read_data(4).acknack(0, 0x8003).acknack(9, 0);
            let bytes = datagram.bytes();
            assert_eq!(room(&bytes, 7), 2 * bytes.len() + 7 + 12 + 1024 * messages);
            // Cut short anywhere, it still has a room, and no greater one.
            for end in 0..bytes.len() {
                assert!(room(&bytes[..end], 7) < room(&bytes, 7), "{end}");
            }
        }
        assert_eq!((room(&[], 0), room(&[1, 1, 0, 0, 0x0E, 0, 255, 255, 0], 0)), (12, 30));
    }

    #[test]
    fn a_fragment_may_bring_the_replies_of_a_whole_message() {
        let plain = Datagram::new(1, 1).delete(4).acknack(0, 1).bytes();
        let fragments = Datagram::new(1, 1).fragment(0, 2, b"a").acknack(0, 1).fragment(1, 2, b"b").bytes();
        assert_eq!(room(&plain, 5), 2 * plain.len() + 5 + 12 + 1024);
        assert_eq!(room(&fragments, 5), 2 * fragments.len() + 5 + 12 + 65_536 + 1024);
    }
}
