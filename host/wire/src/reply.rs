//! A reply of the agent, read: one submessage behind a header.

/// A reply.
#[derive(Clone, Copy, Debug, PartialEq, Eq)]
pub struct Reply<'a> {
    pub session: u8,
    pub stream: u8,
    pub sequence: u16,
    pub body: Body<'a>,
}

/// Its submessage: the agent replies with these three alone. STATUS and ACKNACK have sequence 0, and so has DATA on stream 0.
#[derive(Clone, Copy, Debug, PartialEq, Eq)]
pub enum Body<'a> {
    Status { object: u16, code: u8 },
    Data { reader: u16, data: &'a [u8] },
    Acknack { first: u16, bitmap: u16 },
}

impl<'a> Reply<'a> {
    /// Reads a whole reply; `None` if it isn't one.
    pub fn read(bytes: &'a [u8]) -> Option<Reply<'a>> {
        let [session, stream, a, b, id, _flags, low, high, payload @ ..] = bytes else { return None };
        let sequence = u16::from_le_bytes([*a, *b]);
        if payload.len() != usize::from(u16::from_le_bytes([*low, *high])) {
            return None;
        }
        let body = match (*id, payload) {
            (0x05, [o, p, code]) if sequence == 0 => Body::Status { object: u16::from_le_bytes([*o, *p]), code: *code },
            (0x09, [o, p, data @ ..]) if *stream != 0 || sequence == 0 => {
                Body::Data { reader: u16::from_le_bytes([*o, *p]), data }
            }
            (0x0E, [a, b, c, d]) if sequence == 0 => {
                Body::Acknack { first: u16::from_le_bytes([*a, *b]), bitmap: u16::from_le_bytes([*c, *d]) }
            }
            _ => return None,
        };
        Some(Reply { session: *session, stream: *stream, sequence, body })
    }
}
