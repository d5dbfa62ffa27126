//! A long message in parts, end to end (document 02, W6): shuffled, with losses and repeats, through the program `host`.

mod common;

use common::{ask, open, Running};
use std::net::UdpSocket;
use std::time::Duration;
use wire::{in_parts, strings, Datagram};

const STREAM: u8 = 9;
const WRITER: u16 = 3;
const READER: u16 = 4;
/// An object that there isn't: a DELETE of it is answered.
const NOTHING: u16 = 999;

// Numbers that follow from a seed: the same way through the parts in every run.
struct Chance(u64);

impl Chance {
    fn below(&mut self, most: usize) -> usize {
        self.0 = self.0.wrapping_mul(6_364_136_223_846_793_005).wrapping_add(1_442_695_040_888_963_407);
        (self.0 >> 33) as usize % most
    }
}

// Sends the parts of a message by chance, some of them twice and some not at all, until each has been sent.
fn sends_shuffled(client: &UdpSocket, parts: &[Vec<u8>], chance: &mut Chance) -> usize {
    let (mut missing, mut sent) = ((0..parts.len()).collect::<Vec<_>>(), 0);
    while missing.len() > 1 {
        // Of those that haven't come; or one that has, which comes again.
        let at = chance.below(missing.len());
        let part = if chance.below(4) == 0 { chance.below(parts.len()) } else { missing[at] };
        let lost = chance.below(5) == 0;
        let last = missing.len() == 1 || missing[..] == [part];
        if !lost && !last {
            client.send(&parts[part]).unwrap();
            sent += 1;
            missing.retain(|one| *one != part);
        }
    }
    client.send(&parts[missing[0]]).unwrap();
    sent + 1
}

fn receives(client: &UdpSocket) -> Vec<u8> {
    let mut inbox = vec![0; 65_536];
    let len = client.recv(&mut inbox).expect("a reply");
    inbox.truncate(len);
    inbox
}

#[test]
fn a_long_message_comes_through_shuffled_with_losses_and_repeats() {
    let host = Running::start(&["--log", "error"]);
    let client = host.client();
    let (session, _) = open(&client);
    let mut chance = Chance(1);
    let data: Vec<u8> = (0..30_000).map(|at| (at * 11 + at / 256) as u8).collect();
    let objects =
        Datagram::new(0, 0).create(1, wire::PARTICIPANT, 0, &[]).create(2, wire::TOPIC, 1, &strings(b"carillon", b"t"));
    let message = objects.create(WRITER, wire::DATA_WRITER, 2, &[]).create(READER, wire::DATA_READER, 2, &[]);
    let message = message.write_data(WRITER, &data).delete(NOTHING).submessages();
    let parts: Vec<Vec<u8>> =
        in_parts(session, STREAM, &message, 500).unwrap().into_iter().map(Datagram::bytes).collect();
    assert!(parts.len() > 60 && sends_shuffled(&client, &parts, &mut chance) > parts.len());
    let codes = [(1, 0), (2, 0), (WRITER, 0), (READER, 0), (WRITER, 0), (NOTHING, wire::ERR_UNKNOWN_REF)];
    for (object, code) in codes {
        assert_eq!(receives(&client), Datagram::new(session, STREAM).status(object, code).bytes());
    }
    let read = ask(&client, Datagram::new(session, 0).read_data(READER));
    assert_eq!(read, Datagram::new(session, 0).data(READER, &data).bytes());
    // Again and again, with other parts missing last.
    for number in 0..20u8 {
        let data = vec![number; 9000];
        let write = Datagram::new(0, 0).write_data(WRITER, &data).submessages();
        let parts: Vec<Vec<u8>> = in_parts(session, 0, &write, 300).unwrap().into_iter().map(Datagram::bytes).collect();
        sends_shuffled(&client, &parts, &mut chance);
        assert_eq!(receives(&client), Datagram::new(session, 0).status(WRITER, 0).bytes());
        let read = ask(&client, Datagram::new(session, 0).read_data(READER));
        assert!(read == Datagram::new(session, 0).data(READER, &data).bytes(), "message {number}");
    }
}

// A reply, if one comes soon.
fn receives_soon(client: &UdpSocket) -> Option<Vec<u8>> {
    client.set_read_timeout(Some(Duration::from_millis(300))).unwrap();
    let mut inbox = vec![0; 2048];
    let len = client.recv(&mut inbox).ok()?;
    inbox.truncate(len);
    Some(inbox)
}

// Rebuilt ACKNACKs ask for more than 1 MiB. Nobody sees that before the message is whole: it isn't served then, unless a call is
// open already; and either way the session goes on.
#[test]
fn a_rebuilt_message_that_asks_for_too_much() {
    let host = Running::start(&[]);
    let client = host.client();
    let (session, _) = open(&client);
    let names = strings(b"much", b"t");
    let objects = Datagram::new(session, 0).create(1, wire::PARTICIPANT, 0, &[]).create(2, wire::TOPIC, 1, &names);
    let objects = objects.create(WRITER, wire::DATA_WRITER, 2, &[]).create(READER, wire::DATA_READER, 2, &[]);
    let filled = (0..16).fold(objects, |datagram, _| datagram.write_data(WRITER, &[7; 1014]));
    client.send(&filled.bytes()).unwrap();
    (0..20).for_each(|_| assert_eq!(receives(&client).len(), 11));
    let reads = (0..16).fold(Datagram::new(session, STREAM), |datagram, _| datagram.read_data(READER));
    client.send(&reads.bytes()).unwrap();
    (0..16).for_each(|_| assert_eq!(receives(&client).len(), 1024));
    let asking = |message: Datagram| (0..100).fold(message, |message, _| message.acknack(0, 0xFFFF)).submessages();
    for (message, most) in [(Datagram::new(0, 0), 0), (Datagram::new(0, 0).write_data(WRITER, b"first"), 1601)] {
        for part in in_parts(session, STREAM, &asking(message), 512).unwrap() {
            client.send(&part.bytes()).unwrap();
        }
        // UDP may lose replies that come faster than they are read.
        let came = std::iter::from_fn(|| receives_soon(&client)).count();
        assert!(came <= most && came * 20 >= most, "{came} of {most}");
        let reply = ask(&client, Datagram::new(session, STREAM).delete(NOTHING));
        assert_eq!(reply, Datagram::new(session, STREAM).status(NOTHING, wire::ERR_UNKNOWN_REF).bytes());
    }
    let (code, text) = host.end("-TERM");
    assert!(code == Some(0) && text.contains("refused 13: lent output shorter than the result"), "{text}");
}
