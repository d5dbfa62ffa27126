//! What it costs to hold a message and to repeat it (document 02, W5). The original does neither, so the port stands alone.

use crate::agent_rows::{standing, Objects, FEW};
use crate::agents::{Agent, SAMPLE};
use crate::datagrams::{acknack, datagram, read_data, submessage, READER};
use crate::port::Port;
use std::hint::black_box;

/// A stream on which DATA is held, and how many of it.
const STREAM: u8 = 1;
const HELD: u16 = 16;

/// One session, whose last object is a reader.
fn reading() -> Port {
    standing(1, Some(Objects { kinds: &[READER], count: FEW }))
}

/// The DATA of the sample under its number.
fn numbered(sequence: u16) -> Vec<u8> {
    let mut bytes = datagram(1, STREAM, &submessage(0x09, &[&FEW.to_le_bytes()[..], &SAMPLE].concat()));
    bytes[2..4].copy_from_slice(&sequence.to_le_bytes());
    bytes
}

fn delivered(port: &mut Port, datagram: &[u8]) -> Vec<u8> {
    let mut replies = Vec::new();
    port.deliver(datagram, &mut |reply| replies.extend(reply));
    replies
}

/// READ_DATA behind an ACKNACK of all DATA before it: so one message is held at a time.
pub fn read_and_acknowledge() -> impl FnMut() {
    let (mut port, mut next) = (reading(), 1u16);
    let mut bytes = datagram(1, STREAM, &[acknack(0, 0), read_data(FEW)].concat());
    assert_eq!(delivered(&mut port, &bytes), numbered(0), "a read that is held");
    move || {
        bytes[8..10].copy_from_slice(&next.to_le_bytes());
        next = next.wrapping_add(1);
        port.deliver(&bytes, &mut |reply| {
            black_box(reply);
        });
    }
}

/// An ACKNACK that asks for as many messages as are held.
pub fn repeat_all() -> impl FnMut() {
    let mut port = reading();
    let (read, asking) = (datagram(1, STREAM, &read_data(FEW)), datagram(1, STREAM, &acknack(0, 0xFFFF)));
    let all: Vec<u8> = (0..HELD).flat_map(|_| delivered(&mut port, &read)).collect();
    assert_eq!(all, (0..HELD).flat_map(numbered).collect::<Vec<u8>>(), "{HELD} reads that are held");
    assert_eq!(delivered(&mut port, &asking), all, "their repeats");
    move || {
        port.deliver(black_box(&asking), &mut |reply| {
            black_box(reply);
        });
    }
}
