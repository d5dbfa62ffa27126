//! A datagram, written submessage by submessage.

/// A header and the submessages added to it. A payload has at most 65,535 bytes.
#[derive(Clone, Debug)]
pub struct Datagram(Vec<u8>);

impl Datagram {
    /// A header alone, sequence 0.
    pub fn new(session: u8, stream: u8) -> Self {
        Datagram::numbered(session, stream, 0)
    }

    /// A header alone.
    pub fn numbered(session: u8, stream: u8, sequence: u16) -> Self {
        let [low, high] = sequence.to_le_bytes();
        Datagram(vec![session, stream, low, high])
    }

    /// Adds a submessage of any id and payload, flags 0.
    pub fn submessage(mut self, id: u8, payload: &[u8]) -> Self {
        let length = u16::try_from(payload.len()).expect("a payload has at most 65,535 bytes");
        self.0.extend([id, 0]);
        self.0.extend(length.to_le_bytes());
        self.0.extend(payload);
        self
    }

    pub fn create_client(self, key: [u8; 4]) -> Self {
        self.submessage(0x00, &[key[0], key[1], key[2], key[3], 0])
    }

    pub fn create(self, object: u16, kind: u8, parent: u16, strings: &[u8]) -> Self {
        let ([o, p], [q, r]) = (object.to_le_bytes(), parent.to_le_bytes());
        self.submessage(0x01, &[&[o, p, kind, q, r], strings].concat())
    }

    pub fn delete(self, object: u16) -> Self {
        self.submessage(0x02, &object.to_le_bytes())
    }

    pub fn status(self, object: u16, code: u8) -> Self {
        let [o, p] = object.to_le_bytes();
        self.submessage(0x05, &[o, p, code])
    }

    pub fn write_data(self, writer: u16, data: &[u8]) -> Self {
        self.submessage(0x07, &[&writer.to_le_bytes(), data].concat())
    }

    pub fn read_data(self, reader: u16) -> Self {
        let [o, p] = reader.to_le_bytes();
        self.submessage(0x08, &[o, p, 1, 0])
    }

    pub fn data(self, reader: u16, data: &[u8]) -> Self {
        self.submessage(0x09, &[&reader.to_le_bytes(), data].concat())
    }

    pub fn heartbeat(self, first: u16, last: u16) -> Self {
        let ([a, b], [c, d]) = (first.to_le_bytes(), last.to_le_bytes());
        self.submessage(0x0D, &[a, b, c, d])
    }

    pub fn acknack(self, first: u16, bitmap: u16) -> Self {
        let ([a, b], [c, d]) = (first.to_le_bytes(), bitmap.to_le_bytes());
        self.submessage(0x0E, &[a, b, c, d])
    }

    pub fn fragment(self, number: u16, total: u16, body: &[u8]) -> Self {
        let ([a, b], [c, d]) = (number.to_le_bytes(), total.to_le_bytes());
        self.submessage(0x0F, &[&[a, b, c, d], body].concat())
    }

    pub fn bytes(self) -> Vec<u8> {
        self.0
    }

    /// The submessages without their header: what a client cuts where they are too long for one datagram.
    pub fn submessages(self) -> Vec<u8> {
        self.0[4..].to_vec()
    }
}

/// The datagrams that carry a message's submessages in parts of `size` bytes, 1 to 512 (document 02, W6). There are at most 64 parts,
/// else none is given.
pub fn in_parts(session: u8, stream: u8, submessages: &[u8], size: usize) -> Option<Vec<Datagram>> {
    let bodies: Vec<&[u8]> = submessages.chunks(size.clamp(1, 512)).collect();
    let total = u16::try_from(bodies.len()).ok().filter(|total| (1..=64).contains(total))?;
    let part = |(number, body): (usize, &&[u8])| Datagram::new(session, stream).fragment(number as u16, total, body);
    Some(bodies.iter().enumerate().map(part).collect())
}

/// A Topic's two strings, each its length and its bytes.
pub fn strings(name: &[u8], type_name: &[u8]) -> Vec<u8> {
    let one = |text: &[u8]| {
        let length = u16::try_from(text.len()).expect("a string has at most 65,535 bytes");
        [&length.to_le_bytes(), text].concat()
    };
    [one(name), one(type_name)].concat()
}
