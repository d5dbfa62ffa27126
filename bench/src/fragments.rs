//! What a message in parts costs (document 02, W6). The original knows no FRAGMENT, so the port stands alone.

use crate::agent_rows::{standing, Objects, FEW};
use crate::agents::Agent;
use crate::datagrams::{datagram, status_ok, submessage, write_data, WRITER};
use crate::port::Port;
use std::hint::black_box;

/// The longest message: so many parts, each with a body of so many bytes.
pub const TOTAL: u16 = 64;
pub const BODY: usize = 512;

fn fragment(number: u16, total: u16, body: &[u8]) -> Vec<u8> {
    let fixed = [number.to_le_bytes(), total.to_le_bytes()].concat();
    datagram(1, 0, &submessage(0x0F, &[&fixed, body].concat()))
}

/// One session, whose last object is a writer.
fn writing() -> Port {
    standing(1, Some(Objects { kinds: &[WRITER], count: FEW }))
}

fn send(port: &mut Port, datagram: &[u8]) {
    port.deliver(black_box(datagram), &mut |reply| {
        black_box(reply);
    });
}

/// One FRAGMENT of many, which comes again and again: it is held, in place of itself.
pub fn one_of_many() -> impl FnMut() {
    let (mut port, part) = (writing(), fragment(1, TOTAL, &[7; BODY]));
    port.deliver(&part, &mut |reply| assert!(reply.is_empty(), "a FRAGMENT has no reply"));
    move || send(&mut port, &part)
}

/// All parts of the longest message, one datagram each: behind the last one it is put together, read, and its WRITE_DATA made.
pub fn all_of_many() -> impl FnMut() {
    let mut port = writing();
    let message = write_data(FEW, usize::from(TOTAL) * BODY - 6);
    let parts: Vec<Vec<u8>> = (0..).zip(message.chunks(BODY)).map(|(at, body)| fragment(at, TOTAL, body)).collect();
    let mut replies = Vec::new();
    parts.iter().for_each(|part| port.deliver(part, &mut |reply| replies.extend(reply)));
    assert_eq!((parts.len(), replies), (usize::from(TOTAL), datagram(1, 0, &status_ok(FEW))), "a message in parts");
    move || parts.iter().for_each(|part| send(&mut port, part))
}
