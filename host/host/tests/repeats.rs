//! Samples over a way that loses every third DATA (document 02, W5): the client asks for what is missing, and has every sample
//! in order and byte for byte.

mod common;

use common::{ask, creates_all, open, Running, READER, WRITER};
use std::net::UdpSocket;
use wire::{Body, Datagram, Received, Reply};

const SAMPLES: usize = 60;
const STREAM: u8 = 9;
/// An object that there isn't. What is said about it ends the replies to a datagram.
const NOTHING: u16 = 999;

// Samples of every length from none to the most that is held, 1,014 bytes.
fn sample(number: usize) -> Vec<u8> {
    (0..number * 1014 / (SAMPLES - 1)).map(|at| (number * 31 + at) as u8).collect()
}

/// A client that throws every third DATA away, repeats included.
struct Lossy {
    socket: UdpSocket,
    session: u8,
    received: Received,
    came: usize,
    lost: usize,
}

impl Lossy {
    // Sends a datagram that ends in a DELETE of nothing, and takes the DATA of its replies, so far as it isn't lost.
    fn exchange(&mut self, datagram: Datagram) {
        self.socket.send(&datagram.delete(NOTHING).bytes()).unwrap();
        let mut inbox = [0; 2048];
        loop {
            let len = self.socket.recv(&mut inbox).expect("a reply");
            let reply = Reply::read(&inbox[..len]).expect("a reply that reads");
            assert_eq!((reply.session, reply.stream), (self.session, STREAM));
            match reply.body {
                Body::Status { object: NOTHING, .. } => return,
                Body::Data { reader: READER, data } => self.takes(reply.sequence, data),
                Body::Status { object: READER, code } => assert!(matches!(code, wire::OK | wire::ERR_RESOURCES)),
                other => panic!("{other:?}"),
            }
        }
    }

    fn takes(&mut self, sequence: u16, data: &[u8]) {
        self.came += 1;
        if self.came.is_multiple_of(3) {
            self.lost += 1;
        } else {
            self.received.take(sequence, data);
        }
    }

    // Acknowledges what has come, asks for what is missing and for the expected number, and reads up to that many samples.
    fn reads(&mut self, samples: usize) {
        let (first, bitmap) = (self.received.expected(), self.received.missing() | 1);
        let asking = Datagram::new(self.session, STREAM).acknack(first, bitmap);
        self.exchange((0..samples).fold(asking, |datagram, _| datagram.read_data(READER)));
    }
}

#[test]
fn every_sample_comes_in_order_though_data_is_lost() {
    let host = Running::start(&["--log", "error"]);
    let socket = host.client();
    let (session, code) = open(&socket);
    assert_eq!(code, wire::OK);
    creates_all(&socket, session, b"lossy");
    for number in 0..SAMPLES {
        let reply = ask(&socket, Datagram::new(session, 0).write_data(WRITER, &sample(number)));
        assert_eq!(reply, Datagram::new(session, 0).status(WRITER, wire::OK).bytes());
    }
    let mut lossy = Lossy { socket, session, received: Received::default(), came: 0, lost: 0 };
    let mut got: Vec<Vec<u8>> = Vec::new();
    // From one sample in a datagram to more than the agent holds.
    for samples in [1, 2, 5, 8, 16, 20].into_iter().cycle().take(40) {
        lossy.reads(samples);
        got.extend(std::iter::from_fn(|| lossy.received.in_turn()));
    }
    assert_eq!(got.len(), SAMPLES);
    assert!((0..SAMPLES).all(|number| got[number] == sample(number)), "a sample differs");
    assert!(lossy.lost > SAMPLES / 3, "{} lost", lossy.lost);
    assert_eq!(usize::from(lossy.received.expected()), SAMPLES);
}

// 8 bytes of ACKNACK may ask for 16 KiB: a datagram full of them isn't served, and the session goes on.
#[test]
fn a_datagram_that_asks_for_too_much_is_not_served() {
    let host = Running::start(&[]);
    let client = host.client();
    let (session, _) = open(&client);
    let asking = (0..1000).fold(Datagram::new(session, STREAM), |datagram, _| datagram.acknack(0, 0xFFFF));
    client.send(&asking.delete(NOTHING).bytes()).unwrap();
    let few = (0..20).fold(Datagram::new(session, STREAM), |datagram, _| datagram.acknack(0, 0xFFFF));
    let reply = ask(&client, few.delete(7));
    assert_eq!(reply, Datagram::new(session, STREAM).status(7, wire::ERR_UNKNOWN_REF).bytes());
    let (code, text) = host.end("-TERM");
    assert!(code == Some(0) && text.contains("not served: its replies may take"), "{text}");
}
