//! The original's wire layer.

use crate::wire::{Message, Wire};
use hdds_xrce::protocol::*;
use std::hint::black_box;

pub struct OriginalWire {
    message: XrceMessage,
}

fn message(submessages: Vec<Submessage>) -> XrceMessage {
    XrceMessage { header: MessageHeader { session_id: 1, stream_id: 0, sequence_nr: 0 }, submessages }
}

/// Id, number and data of the submessages that the rows parse.
fn described(submessage: &Submessage) -> Vec<u8> {
    let (id, number, data): (u8, u16, &[u8]) = match submessage {
        Submessage::Delete(payload) => (SUBMSG_DELETE, payload.object_id, &[]),
        Submessage::WriteData(payload) => (SUBMSG_WRITE_DATA, payload.writer_id, &payload.data),
        other => panic!("no row parses {other:?}"),
    };
    [&[id][..], &number.to_le_bytes(), data].concat()
}

impl Wire for OriginalWire {
    fn new() -> Self {
        Self { message: message(Vec::new()) }
    }

    fn prepare(&mut self, to_write: &Message) {
        let submessage = match to_write {
            Message::Status { object } => {
                Submessage::Status(StatusPayload { related_object_id: *object, status: StatusCode::Ok })
            }
            Message::Data { reader, data } => Submessage::Data(DataPayload { reader_id: *reader, data: data.clone() }),
        };
        self.message = message(vec![submessage]);
    }

    fn parse(&mut self, datagram: &[u8]) {
        let read = parse_message(black_box(datagram));
        assert!(black_box(&read).is_ok());
    }

    fn described(&mut self, datagram: &[u8]) -> Vec<u8> {
        let read = parse_message(datagram).expect("the rows' datagrams are well formed");
        let mut all = read.header.to_bytes();
        read.submessages.iter().for_each(|submessage| all.extend(described(submessage)));
        all
    }

    fn string(&mut self, bytes: &[u8], sent: &mut impl FnMut(&[u8])) {
        let (text, _) = decode_string(black_box(bytes)).expect("the rows' strings are whole");
        sent(text.as_bytes());
    }

    fn write(&mut self, sent: &mut impl FnMut(&[u8])) {
        sent(&serialize_message(black_box(&self.message)));
    }

    fn cut(&mut self, payload: &[u8], size: usize, sent: &mut impl FnMut(&[u8])) {
        let fragments = fragment_payload(black_box(payload), size).expect("the rows' payloads can be cut");
        fragments.iter().for_each(|fragment| sent(fragment));
    }

    // `insert` wants each body as a vector of its own, so a body that came in a datagram has to be copied for it.
    fn reassemble(&mut self, bodies: &[Vec<u8>], _size: usize, sent: &mut impl FnMut(&[u8])) {
        let mut store = ReassemblyBuffer::new(bodies.len() as u16);
        for (number, body) in bodies.iter().enumerate() {
            store.insert(number as u16, black_box(body).to_vec()).expect("the number is below the total");
        }
        sent(&store.assemble().expect("every fragment is there"));
    }
}
