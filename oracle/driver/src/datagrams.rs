//! Datagrams by chance: whole ones of every kind, and damaged copies.

use crate::chance::Chance;
use hdds_xrce::protocol::{parse_message, XrceError};

/// Each listed submessage id with its least payload length, from document 01's table.
pub const KINDS: [(u8, usize); 9] =
    [(0x00, 5), (0x01, 5), (0x02, 2), (0x05, 3), (0x07, 2), (0x08, 4), (0x09, 2), (0x0D, 4), (0x0E, 4)];

/// Whether both sides read the datagram with one list of ids: document 02 adds FRAGMENT, 0x0F, which the original refuses (W6).
pub fn without_fragment(datagram: &[u8]) -> bool {
    !matches!(parse_message(datagram), Err(XrceError::UnknownSubmessageId(0x0F)))
}

pub fn header(session: u8, stream: u8, sequence: u16) -> Vec<u8> {
    vec![session, stream, sequence as u8, (sequence >> 8) as u8]
}

/// A submessage with these header fields; `length` may differ from the payload's.
pub fn with_length(id: u8, flags: u8, length: u16, payload: &[u8]) -> Vec<u8> {
    let mut bytes = vec![id, flags, length as u8, (length >> 8) as u8];
    bytes.extend_from_slice(payload);
    bytes
}

pub fn submessage(id: u8, flags: u8, payload: &[u8]) -> Vec<u8> {
    with_length(id, flags, payload.len() as u16, payload)
}

/// CREATE of an object, with its strings.
pub fn create(object: u16, kind: u8, parent: u16, strings: &[u8]) -> Vec<u8> {
    let fixed = [&object.to_le_bytes()[..], &[kind], &parent.to_le_bytes()].concat();
    submessage(0x01, 0, &[&fixed, strings].concat())
}

pub fn delete(object: u16) -> Vec<u8> {
    submessage(0x02, 0, &object.to_le_bytes())
}

fn few(chance: &mut Chance) -> u64 {
    match chance.below(40) {
        0 => chance.within(200, 700),
        1..=7 => chance.within(6, 60),
        _ => chance.below(6),
    }
}

/// A payload that reads: the fixed fields by chance, and often bytes behind them.
fn payload(chance: &mut Chance, id: u8, least: usize) -> Vec<u8> {
    let mut payload = chance.bytes(least as u64);
    match id {
        0x01 => payload[2] = chance.within(1, 6) as u8,
        0x05 => payload[2] = chance.below(5) as u8,
        _ => {}
    }
    if matches!(id, 0x01 | 0x07 | 0x09) || chance.one_in(4) {
        let behind = few(chance);
        payload.extend(chance.bytes(behind));
    }
    payload
}

fn flags(chance: &mut Chance) -> u8 {
    if chance.one_in(2) {
        0
    } else {
        chance.byte()
    }
}

pub fn whole_submessage(chance: &mut Chance) -> Vec<u8> {
    let (id, least) = chance.pick(&KINDS);
    let payload = payload(chance, id, least);
    submessage(id, flags(chance), &payload)
}

/// A datagram that is accepted, with up to eight submessages.
pub fn whole(chance: &mut Chance) -> Vec<u8> {
    let mut datagram = chance.bytes(4);
    for _ in 0..chance.pick(&[1, 1, 1, 2, 2, 3, 4, 8]) {
        datagram.extend(whole_submessage(chance));
    }
    datagram
}

/// A copy with one thing wrong, or several: it may still be accepted.
pub fn damaged(chance: &mut Chance, datagram: &[u8]) -> Vec<u8> {
    let mut copy = datagram.to_vec();
    for _ in 0..chance.pick(&[1, 1, 1, 2]) {
        damage(chance, &mut copy);
    }
    copy
}

fn damage(chance: &mut Chance, copy: &mut Vec<u8>) {
    if copy.is_empty() {
        return;
    }
    let at = chance.below(copy.len() as u64) as usize;
    match chance.below(9) {
        0 => copy.truncate(at),
        1 => {
            let more = chance.within(1, 5);
            copy.extend(chance.bytes(more));
        }
        2 => copy[at] = chance.byte(),
        3 => copy[at] ^= 1 << chance.below(8),
        4 => {
            copy.remove(at);
        }
        5 => copy.insert(at, chance.byte()),
        6 => copy[at] = copy[at].wrapping_add(1),
        7 => copy[at] = copy[at].wrapping_sub(1),
        _ => copy.truncate(copy.len().saturating_sub(chance.within(1, 4) as usize)),
    }
}

/// Every datagram of a few bytes that the layouts tell apart: each length of header, each id with each payload length
/// round its least, missing or surplus bytes, each object kind and status code.
pub fn short() -> Vec<Vec<u8>> {
    let mut all = Vec::new();
    for length in 0..4 {
        all.push(vec![1; length]);
    }
    let start = header(1, 0, 5);
    for bytes in 0..4u8 {
        all.push([&start[..], &vec![2; bytes as usize]].concat());
    }
    for first in 0..=255u8 {
        all.push([&start[..], &[first]].concat());
        all.push([&start[..], &[first, first]].concat());
    }
    for id in 0..=255u8 {
        for length in 0..8u16 {
            for behind in [-1, 0, 1, 2, 3, 4] {
                let held = length as i32 + behind;
                if held >= 0 {
                    let payload = vec![1; held as usize];
                    all.push([&start[..], &with_length(id, 0, length, &payload)].concat());
                }
            }
        }
    }
    for byte in 0..=255u8 {
        for length in 2..7 {
            let payload = &[9, 8, byte, 7, 6, 5][..length.min(6)];
            for id in [0x01, 0x05] {
                all.push([&start[..], &submessage(id, byte, payload)].concat());
            }
        }
    }
    all
}

/// Two and three submessages, each listed or not, whole or short of its least length, so that each failure meets each
/// other in either order.
pub fn pairs() -> Vec<Vec<u8>> {
    let mut parts: Vec<Vec<u8>> = Vec::new();
    for (id, least) in KINDS {
        for length in [least - 1, least, least + 1] {
            parts.push(submessage(id, 0, &vec![1; length]));
        }
    }
    for id in [0x03, 0x04, 0x06, 0x0A, 0x0B, 0x0C, 0xFF] {
        parts.push(submessage(id, 0, &[]));
    }
    parts.push(submessage(0x01, 0, &[1, 0, 7, 0, 0]));
    parts.push(submessage(0x05, 0, &[1, 0, 5]));
    parts.push(with_length(0x07, 0, 40, &[1, 0]));
    let mut all = Vec::new();
    for first in &parts {
        for second in &parts {
            let both = [&header(3, 129, 65_535)[..], first, second].concat();
            all.push(both[..both.len() - 1].to_vec());
            all.push([&both[..], &[0x02]].concat());
            all.push(both);
        }
    }
    all
}

/// The greatest payloads: the length field's own end, whole, one byte short and one byte over.
pub fn long() -> Vec<Vec<u8>> {
    let mut all = Vec::new();
    for id in [0x01, 0x07, 0x09, 0x02] {
        for length in [65_534u16, 65_535] {
            let payload: Vec<u8> = (0..length).map(|i| if i == 2 { 2 } else { i as u8 }).collect();
            let datagram = [&header(1, 0, 0)[..], &submessage(id, 0, &payload)].concat();
            all.push(datagram[..datagram.len() - 1].to_vec());
            all.push([&datagram[..], &[0]].concat());
            all.push(datagram);
        }
    }
    all
}
