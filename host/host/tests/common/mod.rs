//! The program `host`, started by a test, and a client's requests.
#![allow(dead_code)]

use std::io::{BufRead, BufReader, Read};
use std::net::UdpSocket;
use std::process::{Child, Command, Stdio};
use std::time::Duration;
use wire::{strings, Body, Datagram, Reply};

pub const HOST: &str = env!("CARGO_BIN_EXE_host");

/// Objects of `creates_all`.
pub const WRITER: u16 = 3;
pub const READER: u16 = 4;

pub struct Running {
    pub child: Child,
    pub address: String,
}

impl Drop for Running {
    fn drop(&mut self) {
        let _ = self.child.kill();
        let _ = self.child.wait();
    }
}

impl Running {
    pub fn start(flags: &[&str]) -> Self {
        Running::start_as(Command::new(HOST).args(["udp", "--port", "0"]).args(flags))
    }

    /// The same of a command line of one's own.
    pub fn start_as(command: &mut Command) -> Self {
        let mut child = command.stdout(Stdio::piped()).stderr(Stdio::piped()).spawn().expect("the host starts");
        let mut line = String::new();
        BufReader::new(child.stdout.as_mut().unwrap()).read_line(&mut line).unwrap();
        let address = line.trim_end().strip_prefix("listening on ").expect("where it listens").into();
        Running { child, address }
    }

    /// Its exit code and what it wrote to standard error.
    pub fn end(mut self, signal: &str) -> (Option<i32>, String) {
        Command::new("kill").args([signal, &self.child.id().to_string()]).status().expect("kill runs");
        let mut text = String::new();
        self.child.stderr.as_mut().unwrap().read_to_string(&mut text).unwrap();
        (self.child.wait().unwrap().code(), text)
    }

    pub fn client(&self) -> UdpSocket {
        let socket = UdpSocket::bind("127.0.0.1:0").unwrap();
        socket.connect(&self.address).unwrap();
        socket.set_read_timeout(Some(Duration::from_secs(5))).unwrap();
        socket
    }
}

pub fn ask(client: &UdpSocket, datagram: Datagram) -> Vec<u8> {
    client.send(&datagram.bytes()).unwrap();
    let mut inbox = vec![0; 65_536];
    let len = client.recv(&mut inbox).expect("a reply");
    inbox.truncate(len);
    inbox
}

pub fn open(client: &UdpSocket) -> (u8, u8) {
    match Reply::read(&ask(client, Datagram::new(0, 0).create_client([1; 4]))).unwrap() {
        Reply { session, body: Body::Status { object: 0, code }, .. } => (session, code),
        other => panic!("{other:?}"),
    }
}

/// A participant, a topic of that name, a writer and a reader of it.
pub fn creates_all(client: &UdpSocket, session: u8, topic: &[u8]) {
    creates_typed(client, session, topic, b"t");
}

/// The same with a type name.
pub fn creates_typed(client: &UdpSocket, session: u8, topic: &[u8], type_name: &[u8]) {
    for (object, kind, parent, text) in [
        (1, wire::PARTICIPANT, 0, vec![]),
        (2, wire::TOPIC, 1, strings(topic, type_name)),
        (WRITER, wire::DATA_WRITER, 2, vec![]),
        (READER, wire::DATA_READER, 2, vec![]),
    ] {
        let reply = ask(client, Datagram::new(session, 0).create(object, kind, parent, &text));
        assert_eq!(reply, Datagram::new(session, 0).status(object, wire::OK).bytes());
    }
}
