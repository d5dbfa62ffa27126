//! Datagrams by chance: good ones, damaged ones, and bytes.

use crate::chance::Chance;
use wire::{strings, Datagram};

// Mostly Participants have the numbers 0 and 1, Topics 2 and 3, writers and readers 4 to 7: so parents lead somewhere.
fn number(chance: &mut Chance, usual: &[u16]) -> u16 {
    if chance.once_in(4) {
        chance.below(8) as u16
    } else {
        chance.of(usual)
    }
}

// A FRAGMENT, its body one of two halves of a few submessages, so that messages come to be whole: mostly ones that read.
fn fragment(chance: &mut Chance, datagram: Datagram) -> Datagram {
    let total = chance.of(&[1, 1, 2, 2, 2, 3, 64, 65, 0]);
    let number = chance.below(usize::from(total).min(3) + 1) as u16;
    let mut inner = Datagram::new(0, 0);
    for _ in 0..=chance.below(3) {
        inner = plain(chance, inner);
    }
    let mut body = inner.submessages();
    if chance.once_in(8) {
        body.truncate(chance.below(body.len() + 1));
    }
    // Only the first part has bytes, mostly: the others would seldom go on where it ends.
    if number != 0 && !chance.once_in(4) {
        body.clear();
    }
    datagram.fragment(number, total, &body)
}

// A Topic's two strings: mostly text, in characters of one to four bytes; at times any bytes, or cut short, which come to no call
// (document 02, W7).
fn names(chance: &mut Chance) -> Vec<u8> {
    const CHARACTERS: [&str; 8] = ["a", "z", "\0", "é", "\u{7FF}", "€", "\u{FFFD}", "\u{10FFFF}"];
    let count = chance.below(6);
    let text: String = (0..count).map(|_| chance.of(&CHARACTERS)).collect();
    let name = if chance.once_in(8) { chance.bytes(1 + 2 * count) } else { text.into_bytes() };
    let mut strings = strings(&name, b"type");
    if chance.once_in(16) {
        strings.truncate(chance.below(strings.len()));
    }
    strings
}

// A submessage of any of the ten kinds, its numbers small so that they meet again.
fn add(chance: &mut Chance, datagram: Datagram) -> Datagram {
    if chance.once_in(5) {
        return fragment(chance, datagram);
    }
    plain(chance, datagram)
}

fn plain(chance: &mut Chance, datagram: Datagram) -> Datagram {
    let object = chance.below(8) as u16;
    match chance.below(16) {
        0 => datagram.create_client([1, 2, 3, chance.byte()]),
        1 => datagram.create(number(chance, &[0, 1]), 1, chance.below(3) as u16, &[]),
        2 => {
            let (topic, participant) = (number(chance, &[2, 3]), number(chance, &[0, 1]));
            datagram.create(topic, 2, participant, &names(chance))
        }
        3 => datagram.create(object, 1 + chance.below(6) as u8, chance.below(8) as u16, &[]),
        4 => datagram.create(chance.below(40) as u16, chance.of(&[3, 4]), 0, &[]),
        5 => {
            let topic = number(chance, &[2, 3]);
            datagram.create(number(chance, &[4, 5, 6, 7]), chance.of(&[5, 6]), topic, &[])
        }
        6 => datagram.delete(object),
        7 | 8 => {
            let len = chance.below(24);
            datagram.write_data(object, &chance.bytes(len))
        }
        9..=11 => datagram.read_data(object),
        12 => datagram.heartbeat(chance.extreme() as u16, chance.extreme() as u16),
        13 => datagram.acknack(chance.extreme() as u16, chance.extreme() as u16),
        14 => datagram.data(object, &[1, 2]),
        _ => datagram.status(object, chance.below(5) as u8),
    }
}

/// A datagram that reads, for one of those sessions.
pub fn good_datagram(chance: &mut Chance, sessions: &[u8]) -> Vec<u8> {
    let stream = if chance.once_in(4) { chance.of(&[1, 2, 3, 127, 128, 129, 130, 255]) } else { 0 };
    let mut datagram = Datagram::new(chance.of(sessions), stream);
    for _ in 0..=chance.below(4) {
        datagram = add(chance, datagram);
    }
    datagram.bytes()
}

/// Some bytes of it changed, cut off or added.
pub fn damage(chance: &mut Chance, datagram: &mut Vec<u8>) {
    for _ in 0..=chance.below(3) {
        match chance.below(4) {
            0 => datagram.truncate(chance.below(datagram.len() + 1)),
            1 => datagram.push(chance.byte()),
            _ if datagram.is_empty() => {}
            _ => {
                let at = chance.below(datagram.len());
                datagram[at] = chance.extreme() as u8;
            }
        }
    }
}

/// Mostly good, at times damaged, at times bytes.
pub fn any_datagram(chance: &mut Chance, sessions: &[u8]) -> Vec<u8> {
    if chance.once_in(32) {
        let len = chance.below(60);
        return chance.bytes(len);
    }
    let mut datagram = good_datagram(chance, sessions);
    if chance.once_in(6) {
        damage(chance, &mut datagram);
    }
    datagram
}
