//! The port's wire layer, with the buffers that the host lends it.

use crate::interface::*;
use crate::wire::{Message, Wire};

/// Buffers for the longest row: 100 submessages, and 64 KiB in 128 fragments.
const ROWS: usize = 100;
const FRAGMENTS: usize = 128;
const PAYLOAD: usize = 65536;

const STATUS: u64 = 0x05;
const DATA: u64 = 0x09;

pub struct PortWire {
    rows: Box<[[u64; ROW]]>,
    // The message that is written: its fields, and its data.
    row: [u64; ROW],
    body: Vec<u8>,
    store: [u64; STORE],
    slots: Box<[u8]>,
    lengths: Box<[u32]>,
    out: Box<[u8]>,
}

/// How many submessages were read into the rows, and the header.
struct Read {
    header: usize,
    count: usize,
}

impl PortWire {
    fn read(&mut self, datagram: &[u8]) -> Read {
        let (bytes, len) = (datagram.as_ptr(), datagram.len());
        // SAFETY: each pointer comes with the length of its slice, and those that are written share no byte.
        unsafe {
            let header = number(xrce_wire_header(bytes, len));
            let count = number(xrce_wire_parse(bytes, len, self.rows.as_mut_ptr(), self.rows.len()));
            Read { header, count }
        }
    }

    fn fragment(&mut self, payload: &[u8], size: usize, place: usize, from: usize) -> usize {
        let out = &mut self.out[from..];
        let (bytes, len) = (payload.as_ptr(), payload.len());
        // SAFETY: as in `read`.
        number(unsafe { xrce_wire_fragment(bytes, len, size as u64, place as u16, out.as_mut_ptr(), out.len()) })
    }

    fn empty_store(&mut self, total: usize, width: usize) {
        let (store, slots, lengths) = (&mut self.store, &self.slots, &mut self.lengths);
        let (total, width) = (total as u16, width as u16);
        // SAFETY: as in `read`.
        let answer = unsafe {
            let (entries, entry_count) = (lengths.as_mut_ptr(), lengths.len());
            xrce_wire_store(store.as_mut_ptr(), STORE, total, width, slots.as_ptr(), slots.len(), entries, entry_count)
        };
        number(answer);
    }

    fn insert(&mut self, place: usize, body: &[u8]) {
        // SAFETY: as in `read`.
        let answer = unsafe {
            xrce_wire_insert(
                self.store.as_mut_ptr(),
                STORE,
                self.slots.as_mut_ptr(),
                self.slots.len(),
                self.lengths.as_mut_ptr(),
                self.lengths.len(),
                place as u16,
                body.as_ptr(),
                body.len(),
            )
        };
        number(answer);
    }

    fn assemble(&mut self) -> &[u8] {
        // SAFETY: as in `read`.
        let answer = unsafe {
            xrce_wire_assemble(
                self.store.as_ptr(),
                STORE,
                self.slots.as_ptr(),
                self.slots.len(),
                self.lengths.as_ptr(),
                self.lengths.len(),
                self.out.as_mut_ptr(),
                self.out.len(),
            )
        };
        &self.out[..number(answer)]
    }
}

impl Wire for PortWire {
    fn new() -> Self {
        Self {
            rows: vec![[0; ROW]; ROWS].into(),
            row: [0; ROW],
            body: Vec::new(),
            store: [0; STORE],
            // A slot more than the payload fills, since the last fragment's slot is as wide as the others.
            slots: vec![0; 2 * PAYLOAD].into(),
            lengths: vec![0; FRAGMENTS].into(),
            out: vec![0; PAYLOAD + 4 * FRAGMENTS].into(),
        }
    }

    fn prepare(&mut self, message: &Message) {
        match message {
            Message::Status { object } => self.row[..2].copy_from_slice(&[STATUS, *object as u64]),
            Message::Data { reader, data } => {
                self.row[..2].copy_from_slice(&[DATA, *reader as u64]);
                self.body.clone_from(data);
            }
        }
    }

    fn parse(&mut self, datagram: &[u8]) {
        self.read(datagram);
    }

    fn described(&mut self, datagram: &[u8]) -> Vec<u8> {
        let read = self.read(datagram);
        let mut all = (read.header as u32).to_le_bytes().to_vec();
        for row in &self.rows[..read.count] {
            all.push(row[0] as u8);
            all.extend((row[1] as u16).to_le_bytes());
            all.extend(&datagram[row[4] as usize..(row[4] + row[5]) as usize]);
        }
        all
    }

    fn string(&mut self, bytes: &[u8], sent: &mut impl FnMut(&[u8])) {
        // SAFETY: as in `read`.
        let len = number(unsafe { xrce_wire_string(bytes.as_ptr(), bytes.len(), 0) });
        sent(&bytes[2..2 + len]);
    }

    fn write(&mut self, sent: &mut impl FnMut(&[u8])) {
        let (out, room) = (self.out.as_mut_ptr(), self.out.len());
        let (body, len) = (self.body.as_ptr(), self.body.len());
        // SAFETY: as in `read`.
        let answer = unsafe { xrce_wire_write(out, room, 1, 0, 0, self.row.as_ptr(), ROW, body, len) };
        sent(&self.out[..number(answer)]);
    }

    fn cut(&mut self, payload: &[u8], size: usize, sent: &mut impl FnMut(&[u8])) {
        // SAFETY: as in `read`.
        let count = number(unsafe { xrce_wire_fragments(payload.as_ptr(), payload.len(), size as u64) });
        let mut from = 0;
        for place in 0..count {
            let len = self.fragment(payload, size, place, from);
            sent(&self.out[from..from + len]);
            from += len;
        }
    }

    fn reassemble(&mut self, bodies: &[Vec<u8>], size: usize, sent: &mut impl FnMut(&[u8])) {
        self.empty_store(bodies.len(), size);
        for (place, body) in bodies.iter().enumerate() {
            self.insert(place, body);
        }
        sent(self.assemble());
    }
}
