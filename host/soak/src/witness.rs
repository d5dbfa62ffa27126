//! A client whose session was opened before the flood. Every reply that it gets must be its own.

use crate::repeats::{Reads, STREAM};
use std::io::ErrorKind;
use std::net::{SocketAddr, UdpSocket};
use std::time::{Duration, Instant};
use wire::{strings, Body, Datagram, Reply};

/// A topic that no datagram by chance names; DDS takes the name too.
const NAME: &[u8] = b"the_witness_alone_reads_and_writes_here";
const PARTICIPANT: u16 = 0x0101;
const TOPIC: u16 = 0x0201;
const WRITER: u16 = 0x0301;
const READER: u16 = 0x0401;
/// A reply may take that long on a busy machine.
const LIMIT: Duration = Duration::from_secs(10);

pub struct Witness {
    socket: UdpSocket,
    pub session: u8,
    pub exchanges: u64,
    /// Messages that came again byte for byte.
    pub repeated: u64,
    reads: Reads,
    inbox: Vec<u8>,
}

enum Told {
    Status(u8),
    Data(Vec<u8>),
}

impl Witness {
    /// Opens a session and makes its objects. The bridge may fail, so each CREATE is tried until it is done.
    pub fn new(host: SocketAddr) -> Result<Self, String> {
        let socket = UdpSocket::bind("127.0.0.1:0").map_err(|error| error.to_string())?;
        socket.connect(host).map_err(|error| error.to_string())?;
        socket.set_read_timeout(Some(Duration::from_millis(500))).map_err(|error| error.to_string())?;
        let (reads, inbox) = (Reads::default(), vec![0; 65_536]);
        let mut witness = Witness { socket, session: 0, exchanges: 0, repeated: 0, reads, inbox };
        witness.open()?;
        let names = strings(NAME, b"t");
        for (object, kind, parent, text) in [
            (PARTICIPANT, wire::PARTICIPANT, 0, &[][..]),
            (TOPIC, wire::TOPIC, PARTICIPANT, &names),
            (WRITER, wire::DATA_WRITER, TOPIC, &[]),
            (READER, wire::DATA_READER, TOPIC, &[]),
        ] {
            let datagram = Datagram::new(witness.session, 0).create(object, kind, parent, text).bytes();
            witness.until_ok(&datagram, object)?;
        }
        Ok(witness)
    }

    // Before the flood nothing is lost, so one CREATE_CLIENT is enough, and its session is the first.
    fn open(&mut self) -> Result<(), String> {
        self.socket.send(&Datagram::new(0, 0).create_client(*b"witn").bytes()).map_err(|error| error.to_string())?;
        let len = self.socket.recv(&mut self.inbox).map_err(|error| format!("CREATE_CLIENT: {error}"))?;
        match Reply::read(&self.inbox[..len]) {
            Some(Reply { session, stream: 0, body: Body::Status { object: 0, code: wire::OK }, .. }) => {
                self.session = session;
                Ok(())
            }
            other => Err(format!("CREATE_CLIENT was answered by {other:?}")),
        }
    }

    /// Writes the next message and reads it back; every so often it first tries to take down what that needs.
    pub fn exchange(&mut self) -> Result<(), String> {
        self.exchanges += 1;
        if self.exchanges.is_multiple_of(32) {
            self.take_down()?;
        }
        let sent = format!("message {}", self.exchanges).into_bytes();
        let write = Datagram::new(self.session, 0).write_data(WRITER, &sent).bytes();
        self.until_ok(&write, WRITER)?;
        let start = Instant::now();
        while start.elapsed() < LIMIT {
            match self.read()? {
                Told::Data(got) if got == sent => return Ok(()),
                Told::Data(got) if older(&got, self.exchanges) => {}
                Told::Data(got) => return Err(format!("the witness read another's bytes: {}", got.escape_ascii())),
                // Nothing there: the reader lost it, or that is said of a read before.
                Told::Status(wire::OK) => self.until_ok(&write, WRITER)?,
                Told::Status(wire::ERR_INVALID_DATA) => {}
                Told::Status(code) => return Err(format!("READ_DATA was answered by status {code}")),
            }
        }
        Err(format!("message {} didn't come back", self.exchanges))
    }

    // One sample, on a stream other than 0. If no reply comes, what may have got lost is asked for with the next try.
    fn read(&mut self) -> Result<Told, String> {
        if self.reads.are_many() {
            self.ask_for_repeats()?;
        }
        if let Some(data) = self.reads.in_turn() {
            return Ok(Told::Data(data));
        }
        let mut datagram = Datagram::new(self.session, STREAM);
        let start = Instant::now();
        while start.elapsed() < LIMIT {
            if let Some(told) = self.once(&datagram.read_data(READER).bytes(), READER)? {
                return Ok(told);
            }
            datagram = self.reads.acknowledging(self.session);
        }
        Err("the witness got no reply to a read".into())
    }

    // What isn't acknowledged must come again, byte for byte and in order; then it is acknowledged.
    fn ask_for_repeats(&mut self) -> Result<(), String> {
        let start = Instant::now();
        let mut came = Vec::new();
        while came.len() < self.reads.wanted().len() && start.elapsed() < LIMIT {
            came.clear();
            self.socket.send(&self.reads.asking(self.session)).map_err(|error| error.to_string())?;
            while came.len() < self.reads.wanted().len() {
                let Some(len) = self.receive()? else { break };
                // Nothing is asked about object 0: this only sees that the reply is the witness's own, and its bytes right.
                self.told(len, 0)?;
                came.extend(self.repeat(len));
            }
        }
        if came != self.reads.wanted() {
            return Err(format!("of {} messages that were asked for other ones came", came.len()));
        }
        self.repeated += came.len() as u64;
        let acknowledging = self.reads.acknowledging(self.session).bytes();
        self.socket.send(&acknowledging).map(|_| ()).map_err(|error| error.to_string())
    }

    // The reply, if it is one of the messages that were asked for.
    fn repeat(&self, len: usize) -> Option<Vec<u8>> {
        let bytes = &self.inbox[..len];
        let reply = Reply::read(bytes).filter(|reply| matches!(reply.body, Body::Data { .. }))?;
        self.reads.is_wanted(reply.sequence).then(|| bytes.to_vec())
    }

    // What others depend on stays, and the agent says so without its bridge: a bridge that fails doesn't show.
    fn take_down(&mut self) -> Result<(), String> {
        for object in [PARTICIPANT, TOPIC] {
            let datagram = Datagram::new(self.session, 0);
            for datagram in [datagram.clone().delete(object), datagram.create(object, wire::PARTICIPANT, 0, &[])] {
                match self.ask(&datagram.bytes(), object)? {
                    Told::Status(wire::ERR_INCOMPATIBLE) => {}
                    Told::Status(code) => return Err(format!("taking {object} down was answered by status {code}")),
                    Told::Data(_) => return Err(format!("object {object} was answered by DATA")),
                }
            }
        }
        Ok(())
    }

    // A bridge that fails answers ERR_INVALID_DATA, whatever was asked.
    fn until_ok(&mut self, datagram: &[u8], object: u16) -> Result<(), String> {
        let start = Instant::now();
        while start.elapsed() < LIMIT {
            match self.ask(datagram, object)? {
                Told::Status(wire::OK) => return Ok(()),
                Told::Status(wire::ERR_INVALID_DATA) => {}
                Told::Status(code) => return Err(format!("object {object} was answered by status {code}")),
                Told::Data(_) => return Err(format!("object {object} was answered by DATA")),
            }
        }
        Err(format!("object {object} was never answered by OK"))
    }

    // Sends until the reply about that object comes.
    fn ask(&mut self, datagram: &[u8], wanted: u16) -> Result<Told, String> {
        let start = Instant::now();
        while start.elapsed() < LIMIT {
            if let Some(told) = self.once(datagram, wanted)? {
                return Ok(told);
            }
        }
        Err("the witness got no reply".into())
    }

    // Sends once; the reply about that object, if it comes in time.
    fn once(&mut self, datagram: &[u8], wanted: u16) -> Result<Option<Told>, String> {
        self.socket.send(datagram).map_err(|error| error.to_string())?;
        while let Some(len) = self.receive()? {
            if let Some(told) = self.told(len, wanted)? {
                return Ok(Some(told));
            }
        }
        Ok(None)
    }

    // What a reply says about that object. A reply about another session, stream or object is another's.
    fn told(&mut self, len: usize, wanted: u16) -> Result<Option<Told>, String> {
        let bytes = &self.inbox[..len];
        let reply = Reply::read(bytes).ok_or("the witness got bytes that are no reply")?;
        match (reply.session == self.session, reply.stream, reply.body) {
            (true, 0 | STREAM, Body::Status { object, code }) if object == wanted => Ok(Some(Told::Status(code))),
            // A second reply to what was sent again.
            (true, 0 | STREAM, Body::Status { object: WRITER | TOPIC | PARTICIPANT | READER, .. }) => Ok(None),
            (true, STREAM, Body::Data { reader: READER, .. }) => {
                self.reads.take(reply.sequence, bytes)?;
                Ok((wanted == READER).then(|| self.reads.in_turn().map(Told::Data)).flatten())
            }
            _ => Err(format!("the witness got a reply that isn't its own: {reply:?}")),
        }
    }

    fn receive(&mut self) -> Result<Option<usize>, String> {
        match self.socket.recv(&mut self.inbox) {
            Ok(len) => Ok(Some(len)),
            Err(error) if matches!(error.kind(), ErrorKind::WouldBlock | ErrorKind::TimedOut) => Ok(None),
            Err(error) => Err(error.to_string()),
        }
    }
}

fn older(got: &[u8], number: u64) -> bool {
    let text = std::str::from_utf8(got).ok().and_then(|text| text.strip_prefix("message "));
    text.and_then(|text| text.parse::<u64>().ok()).is_some_and(|seen| seen <= number)
}
