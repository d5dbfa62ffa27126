//! What the clients do, step by step, and what comes of it on one side.

use crate::programs::{publishes, Watch};
use std::net::UdpSocket;
use std::path::Path;
use std::sync::atomic::{AtomicBool, Ordering};
use std::sync::Arc;
use std::thread::sleep;
use std::time::Duration;
use wire::{strings, Body, Datagram, Reply};

pub const DOMAIN: u16 = 60;
const TOPIC: &str = "unplugged";
/// Client 1's objects, and client 2's Publisher.
const PARTICIPANT: u16 = 10;
const TOPIC_OBJECT: u16 = 11;
const READER: u16 = 12;
const PUBLISHER: u16 = 3;
/// Longer than a session lives without a datagram.
const SILENCE: Duration = Duration::from_secs(2);

/// One side: what each step came to; the steps that are the point are marked.
#[derive(Default)]
pub struct Column {
    pub rows: Vec<(bool, &'static str, String)>,
    pub is_reader_alive: bool,
}

impl Column {
    fn add(&mut self, step: &'static str, told: String) {
        self.rows.push((false, step, told));
    }

    fn point(&mut self, step: &'static str, told: String) {
        self.rows.push((true, step, told));
    }
}

struct Client {
    socket: UdpSocket,
    session: u8,
}

impl Client {
    fn open(address: &str, column: &mut Column, step: &'static str) -> Client {
        let mut client = Client { socket: connected(address), session: 0 };
        let reply = client.ask(Datagram::new(0, 0).create_client([1, 2, 3, 4]));
        client.session = reply.first().copied().unwrap_or(0);
        column.add(step, words(&reply));
        client
    }

    fn ask(&self, datagram: Datagram) -> Vec<u8> {
        self.socket.send(&datagram.bytes()).expect("sent");
        let mut inbox = vec![0; 2048];
        let len = self.socket.recv(&mut inbox).unwrap_or(0);
        inbox.truncate(len);
        inbox
    }

    fn to(&self) -> Datagram {
        Datagram::new(self.session, 0)
    }

    fn create(&self, column: &mut Column, step: &'static str, (object, kind, parent): (u16, u8, u16), text: &[u8]) {
        column.add(step, words(&self.ask(self.to().create(object, kind, parent, text))));
    }
}

/// A client that is there: as long as this is, a HEARTBEAT comes now and then. The session's number says whose it is, whatever socket
/// it comes from.
struct Staying(Arc<AtomicBool>);

impl Staying {
    fn start(address: &str, session: u8) -> Staying {
        let socket = connected(address);
        let ended = Arc::new(AtomicBool::new(false));
        let has_ended = ended.clone();
        std::thread::spawn(move || {
            while !has_ended.load(Ordering::Relaxed) {
                let _ = socket.send(&Datagram::new(session, 0).heartbeat(0, 0).bytes());
                sleep(Duration::from_millis(200));
            }
        });
        Staying(ended)
    }
}

impl Drop for Staying {
    fn drop(&mut self) {
        self.0.store(true, Ordering::Relaxed);
    }
}

fn connected(address: &str) -> UdpSocket {
    let socket = UdpSocket::bind("127.0.0.1:0").expect("a socket");
    socket.connect(address).expect("the host's address");
    socket.set_read_timeout(Some(Duration::from_secs(2))).expect("a time limit");
    socket
}

fn words(reply: &[u8]) -> String {
    match Reply::read(reply).map(|reply| reply.body) {
        Some(Body::Status { object, code: wire::OK }) => format!("STATUS {object} OK"),
        Some(Body::Status { object, code }) => format!("STATUS {object} error {code}"),
        Some(Body::Data { reader, data }) => format!("DATA {reader} '{}'", data.escape_ascii()),
        Some(Body::Acknack { .. }) => "ACKNACK".into(),
        None => "no reply".into(),
    }
}

fn shown(readers: &[String]) -> String {
    let guid = |line: &String| format!("reader {}", line.split(' ').next().unwrap_or_default());
    if readers.is_empty() {
        "no reader".into()
    } else {
        readers.iter().map(guid).collect::<Vec<_>>().join(", ")
    }
}

pub fn play(address: &str, watch: &Watch, peer: &Path) -> Column {
    let mut column = Column::default();
    let one = Client::open(address, &mut column, "client 1 opens a session");
    let _stays = Staying::start(address, one.session);
    one.create(&mut column, "client 1 creates a participant", (PARTICIPANT, wire::PARTICIPANT, 0), &[]);
    let names = strings(TOPIC.as_bytes(), b"driver::Message");
    one.create(&mut column, "client 1 creates a topic", (TOPIC_OBJECT, wire::TOPIC, PARTICIPANT), &names);
    one.create(&mut column, "client 1 creates a reader", (READER, wire::DATA_READER, TOPIC_OBJECT), &[]);
    let before = watch.readers(1);
    column.add("another DDS process sees", shown(&before));
    let two = Client::open(address, &mut column, "client 2 opens a session");
    two.create(&mut column, "client 2 creates Publisher 3", (PUBLISHER, wire::PUBLISHER, 0), &[]);
    column.point("client 2 leaves: deletes Publisher 3", words(&two.ask(two.to().delete(PUBLISHER))));
    sleep(SILENCE);
    column.add("client 2 asks after its session ended", words(&two.ask(two.to().heartbeat(0, 0))));
    let after = watch.readers(0);
    column.point("another DDS process sees", shown(&after));
    let has_it = publishes(peer, DOMAIN, TOPIC);
    let found = if has_it { "a reader has it" } else { "no reader is there for it" };
    column.point("another DDS process writes a sample", found.into());
    let read = words(&one.ask(one.to().read_data(READER)));
    column.is_reader_alive = before.len() == 1 && before == after && read == format!("DATA {READER} '00000001'");
    column.point("client 1 reads", read);
    column
}
