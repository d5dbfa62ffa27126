//! The rows of the wire layer: parsing, reading strings, writing, cutting and reassembling.

use crate::datagrams::{data, datagram, delete, letters, string, write_data};
use crate::row::{Goal, Pair, Row};
use crate::timed::Timed;
use crate::wire::{Message, Wire};
use crate::wire_original::OriginalWire;
use crate::wire_port::PortWire;
use std::hint::black_box;
use std::rc::Rc;

const PAYLOAD: usize = 65536;

/// What is done in one turn.
#[derive(Clone)]
enum Work {
    Parse(Rc<Vec<u8>>),
    Read(Rc<Vec<u8>>),
    Write(Rc<Message>),
    Cut { payload: Rc<Vec<u8>>, size: usize },
    Reassemble { bodies: Rc<Vec<Vec<u8>>>, size: usize },
}

struct Side<W> {
    wire: W,
    work: Work,
}

impl<W: Wire> Side<W> {
    fn new(work: &Work) -> Self {
        let mut wire = W::new();
        if let Work::Write(message) = work {
            wire.prepare(message);
        }
        Self { wire, work: work.clone() }
    }

    fn turn(&mut self, sent: &mut impl FnMut(&[u8])) {
        match &self.work {
            Work::Parse(datagram) => self.wire.parse(datagram),
            Work::Read(string) => self.wire.string(string, sent),
            Work::Write(_) => self.wire.write(sent),
            Work::Cut { payload, size } => self.wire.cut(payload, *size, sent),
            Work::Reassemble { bodies, size } => self.wire.reassemble(bodies, *size, sent),
        }
    }
}

impl<W: Wire> Timed for Side<W> {
    fn run(&mut self, turns: usize) {
        for _ in 0..turns {
            self.turn(&mut |bytes| {
                black_box(bytes);
            });
        }
    }

    fn shown(&mut self) -> Vec<u8> {
        if let Work::Parse(datagram) = &self.work {
            return self.wire.described(datagram);
        }
        let mut all = Vec::new();
        self.turn(&mut |bytes| {
            all.extend((bytes.len() as u32).to_le_bytes());
            all.extend(bytes);
        });
        all
    }
}

fn row(name: &'static str, goal: Goal, work: Work) -> Row {
    let make = move || Pair {
        port: Box::new(Side::<PortWire>::new(&work)),
        original: Box::new(Side::<OriginalWire>::new(&work)),
    };
    Row::new(name, goal, 0, 0, make)
}

fn parsing(name: &'static str, submessage: Vec<u8>, count: usize) -> Row {
    row(name, Goal::Parsing, Work::Parse(Rc::new(datagram(1, 0, &submessage.repeat(count)))))
}

/// A string of that text is read: the original gives a copy of it, the port how long it is.
fn reading(name: &'static str, text: &[u8]) -> Row {
    row(name, Goal::NoSlower, Work::Read(Rc::new(string(text))))
}

fn writing(name: &'static str, message: Message) -> Row {
    row(name, Goal::NoSlower, Work::Write(Rc::new(message)))
}

/// Cutting 64 KiB at that size, and putting the fragments together again.
fn fragments(names: [&'static str; 2], size: usize) -> [Row; 2] {
    let payload = Rc::new(data(PAYLOAD));
    let bodies = Rc::new(payload.chunks(size).map(<[u8]>::to_vec).collect());
    [
        row(names[0], Goal::NoSlower, Work::Cut { payload, size }),
        row(names[1], Goal::NoSlower, Work::Reassemble { bodies, size }),
    ]
}

pub fn rows() -> Vec<Row> {
    let mut rows = vec![
        parsing("parse 1 DELETE", delete(3), 1),
        parsing("parse 10 DELETE", delete(3), 10),
        parsing("parse 100 DELETE", delete(3), 100),
        parsing("parse 1 WRITE_DATA of 16 bytes", write_data(3, 16), 1),
        parsing("parse 10 WRITE_DATA of 16 bytes", write_data(3, 16), 10),
        parsing("parse 100 WRITE_DATA of 16 bytes", write_data(3, 16), 100),
        reading("read a string of 16 bytes", &letters(16)),
        reading("read a string of 255 bytes", &letters(255)),
        reading("read a string of 127 two-byte characters", "é".repeat(127).as_bytes()),
        writing("write STATUS", Message::Status { object: 3 }),
        writing("write DATA of 16 bytes", Message::Data { reader: 3, data: data(16) }),
        writing("write DATA of 1,024 bytes", Message::Data { reader: 3, data: data(1024) }),
    ];
    let [cut_512, join_512] = fragments(["cut 64 KiB at 512", "reassemble 64 KiB from 512"], 512);
    let [cut_1400, join_1400] = fragments(["cut 64 KiB at 1,400", "reassemble 64 KiB from 1,400"], 1400);
    let [cut_32768, join_32768] = fragments(["cut 64 KiB at 32,768", "reassemble 64 KiB from 32,768"], 32768);
    rows.extend([cut_512, cut_1400, cut_32768, join_512, join_1400, join_32768]);
    rows
}
