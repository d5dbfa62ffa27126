//! The datagrams of the rows, byte for byte as document 01 lays them out.

pub const PARTICIPANT: u8 = 1;
pub const TOPIC: u8 = 2;
pub const PUBLISHER: u8 = 3;
pub const SUBSCRIBER: u8 = 4;
pub const WRITER: u8 = 5;
pub const READER: u8 = 6;

pub const OK: u8 = 0;

/// A submessage: id, no flags, the payload's length, the payload.
pub fn submessage(id: u8, payload: &[u8]) -> Vec<u8> {
    let mut bytes = vec![id, 0];
    bytes.extend((payload.len() as u16).to_le_bytes());
    bytes.extend(payload);
    bytes
}

/// A datagram: session, stream, sequence number 0, and one submessage.
pub fn datagram(session: u8, stream: u8, submessage: &[u8]) -> Vec<u8> {
    let mut bytes = vec![session, stream, 0, 0];
    bytes.extend(submessage);
    bytes
}

fn pair(first: u16, second: u16) -> Vec<u8> {
    [first.to_le_bytes(), second.to_le_bytes()].concat()
}

pub fn create_client() -> Vec<u8> {
    submessage(0x00, &[1, 2, 3, 4, 0])
}

pub fn create(object: u16, kind: u8, parent: u16) -> Vec<u8> {
    if kind == TOPIC {
        return create_topic(object, parent, b"square", b"ShapeType");
    }
    create_with(object, kind, parent, &[])
}

pub fn create_topic(object: u16, parent: u16, name: &[u8], type_name: &[u8]) -> Vec<u8> {
    create_with(object, TOPIC, parent, &[string(name), string(type_name)].concat())
}

fn create_with(object: u16, kind: u8, parent: u16, strings: &[u8]) -> Vec<u8> {
    let mut payload = object.to_le_bytes().to_vec();
    payload.push(kind);
    payload.extend(parent.to_le_bytes());
    payload.extend(strings);
    submessage(0x01, &payload)
}

/// A string: its length and its bytes.
pub fn string(text: &[u8]) -> Vec<u8> {
    [&(text.len() as u16).to_le_bytes()[..], text].concat()
}

/// So many letters.
pub fn letters(len: usize) -> Vec<u8> {
    (0..len).map(|place| b'a' + (place % 26) as u8).collect()
}

pub fn delete(object: u16) -> Vec<u8> {
    submessage(0x02, &object.to_le_bytes())
}

/// STATUS, as both agents reply it.
pub fn status(object: u16, code: u8) -> Vec<u8> {
    submessage(0x05, &[&object.to_le_bytes()[..], &[code]].concat())
}

pub fn status_ok(object: u16) -> Vec<u8> {
    status(object, OK)
}

pub fn write_data(writer: u16, len: usize) -> Vec<u8> {
    let mut payload = writer.to_le_bytes().to_vec();
    payload.extend(data(len));
    submessage(0x07, &payload)
}

pub fn read_data(reader: u16) -> Vec<u8> {
    submessage(0x08, &pair(reader, 1))
}

pub fn heartbeat(first: u16, last: u16) -> Vec<u8> {
    submessage(0x0D, &pair(first, last))
}

pub fn acknack(first: u16, bitmap: u16) -> Vec<u8> {
    submessage(0x0E, &pair(first, bitmap))
}

/// Bytes that differ from place to place.
pub fn data(len: usize) -> Vec<u8> {
    (0..len).map(|place| (place * 7 + place / 256) as u8).collect()
}

#[cfg(test)]
mod tests {
    use super::*;

    #[test]
    fn they_are_laid_out_as_the_wire_asks() {
        assert_eq!(datagram(1, 0, &delete(3)), [1, 0, 0, 0, 2, 0, 2, 0, 3, 0]);
        assert_eq!(create(7, TOPIC, 1)[..15], *b"\x01\x00\x18\x00\x07\x00\x02\x01\x00\x06\x00squa");
        assert_eq!((create(7, PARTICIPANT, 1).len(), string(&letters(255))[..3].to_vec()), (9, vec![255, 0, b'a']));
        assert_eq!(status_ok(3), [5, 0, 3, 0, 3, 0, 0]);
        assert_eq!(write_data(3, 2), [7, 0, 4, 0, 3, 0, 0, 7]);
        assert_eq!(heartbeat(0, 5), [13, 0, 4, 0, 0, 0, 5, 0]);
    }
}
