//! One session of a client over UDP: requests with re-sends, and what is wrong with a reply.

use crate::args::part_size;
use std::fmt;
use std::io;
use std::net::{SocketAddr, UdpSocket};
use std::time::{Duration, Instant};
use wire::{Body, Datagram, Received, Reply};

/// A reply that takes longer is asked for again.
pub const AGAIN: Duration = Duration::from_millis(250);
/// After that long a reply counts as missing.
pub const LIMIT: Duration = Duration::from_secs(3);

/// Why the client gives up.
#[derive(Debug)]
pub enum Wrong {
    Missing(String),
    Status(String, u8),
    Unread(String, Vec<u8>),
    Other(u64, Vec<u8>),
    NotCome(u64, Duration),
    Io(io::Error),
}

impl fmt::Display for Wrong {
    fn fmt(&self, f: &mut fmt::Formatter<'_>) -> fmt::Result {
        match self {
            Wrong::Missing(what) => write!(f, "no reply to {what} within {} s: is the host running?", LIMIT.as_secs()),
            Wrong::Status(what, code) => {
                write!(f, "{what} was answered by status {code}, {}{}", code_name(*code), reason(what, *code))
            }
            Wrong::Unread(what, bytes) => write!(f, "the reply to {what} isn't a reply: {bytes:02x?}"),
            Wrong::Other(number, got) => {
                write!(f, "another sample was read for message {number}: '{}'", got[..got.len().min(64)].escape_ascii())
            }
            Wrong::NotCome(number, patience) => {
                write!(f, "message {number} didn't come within {} ms", patience.as_millis())
            }
            Wrong::Io(error) => write!(f, "{error}"),
        }
    }
}

impl From<io::Error> for Wrong {
    fn from(error: io::Error) -> Self {
        Wrong::Io(error)
    }
}

fn code_name(code: u8) -> &'static str {
    match code {
        0 => "OK",
        1 => "ERR_UNKNOWN_REF",
        2 => "ERR_INVALID_DATA",
        3 => "ERR_INCOMPATIBLE",
        4 => "ERR_RESOURCES",
        _ => "which there isn't",
    }
}

// ERR_INCOMPATIBLE has two meanings (document 02, W3 and W8): which one it is follows from what was asked.
fn reason(what: &str, code: u8) -> &'static str {
    match (code, what.starts_with("WRITE_DATA")) {
        (wire::ERR_INCOMPATIBLE, true) => ": these are quiet hours, in which the agent lets nothing be written",
        (wire::ERR_INCOMPATIBLE, false) => ": another object depends on that one",
        _ => "",
    }
}

/// What a request led to.
#[derive(Debug, PartialEq, Eq)]
pub enum Told {
    Status(u8),
    Data(Vec<u8>),
}

pub struct Client {
    socket: UdpSocket,
    pub(crate) session: u8,
    /// The stream of its reads, and what has come on it if it isn't 0. All else goes on stream 0.
    pub(crate) stream: u8,
    /// The longest datagram that it sends: what is longer goes in parts.
    longest: usize,
    pub(crate) received: Received,
    pub(crate) inbox: Vec<u8>,
    pub resent: u64,
    /// How often it asked for repeats.
    pub asked: u64,
}

impl Client {
    /// Opens a session. A CREATE_CLIENT that is sent again opens another; the first is then left to expire.
    pub fn connect(host: SocketAddr, stream: u8, longest: usize) -> Result<Client, Wrong> {
        let any = if host.is_ipv4() { "0.0.0.0:0" } else { "[::]:0" };
        let socket = UdpSocket::bind(any)?;
        socket.connect(host)?;
        let (received, inbox) = (Received::default(), vec![0; 65_536]);
        let mut client = Client { socket, session: 0, stream, longest, received, inbox, resent: 0, asked: 0 };
        let key = std::process::id().to_le_bytes();
        let open = Datagram::new(0, 0).create_client(key).bytes();
        let wanted = |reply: &Reply<'_>| match reply.body {
            Body::Status { object: 0, code } => Some((reply.session, code)),
            _ => None,
        };
        let (session, code) = client.request(&[open], "CREATE_CLIENT", wanted)?;
        if code != wire::OK {
            return Err(Wrong::Status("CREATE_CLIENT".into(), code));
        }
        client.session = session;
        Ok(client)
    }

    pub fn session(&self) -> u8 {
        self.session
    }

    pub fn create(&mut self, object: u16, kind: u8, parent: u16, strings: &[u8], what: &str) -> Result<(), Wrong> {
        let datagram = Datagram::new(self.session, 0).create(object, kind, parent, strings).bytes();
        self.expect_ok(&[datagram], object, &format!("CREATE of the {what}"))
    }

    pub fn delete(&mut self, object: u16, what: &str) -> Result<(), Wrong> {
        let before = self.resent;
        let what = format!("DELETE of the {what}");
        match self.about(&[Datagram::new(self.session, 0).delete(object).bytes()], object, &what)? {
            Told::Status(wire::OK) => Ok(()),
            // The first may have been done, and its reply lost.
            Told::Status(wire::ERR_UNKNOWN_REF) if self.resent > before => Ok(()),
            Told::Status(code) => Err(Wrong::Status(what, code)),
            Told::Data(data) => Err(Wrong::Unread(what, data)),
        }
    }

    pub fn write(&mut self, writer: u16, data: &[u8]) -> Result<(), Wrong> {
        let datagram = Datagram::new(self.session, 0).write_data(writer, data);
        if datagram.clone().bytes().len() > self.longest {
            return self.write_in_parts(writer, &datagram.submessages(), part_size(self.longest));
        }
        self.expect_ok(&[datagram.bytes()], writer, "WRITE_DATA")
    }

    /// One sample, or `None` if the reader has none.
    pub fn read(&mut self, reader: u16) -> Result<Option<Vec<u8>>, Wrong> {
        if self.stream != 0 {
            return self.read_numbered(reader);
        }
        match self.about(&[Datagram::new(self.session, 0).read_data(reader).bytes()], reader, "READ_DATA")? {
            Told::Data(data) => Ok(Some(data)),
            Told::Status(wire::OK) => Ok(None),
            Told::Status(code) => Err(Wrong::Status("READ_DATA".into(), code)),
        }
    }

    pub(crate) fn expect_ok(&mut self, datagrams: &[Vec<u8>], object: u16, what: &str) -> Result<(), Wrong> {
        match self.about(datagrams, object, what)? {
            Told::Status(wire::OK) => Ok(()),
            Told::Status(code) => Err(Wrong::Status(what.into(), code)),
            Told::Data(data) => Err(Wrong::Unread(what.into(), data)),
        }
    }

    // The reply about that object of this session; later ones to requests that were sent again are passed over.
    fn about(&mut self, datagrams: &[Vec<u8>], wanted: u16, what: &str) -> Result<Told, Wrong> {
        let session = self.session;
        self.request(datagrams, what, |reply| match reply.body {
            Body::Status { object, code } if (reply.session, object) == (session, wanted) => Some(Told::Status(code)),
            Body::Data { reader, data } if (reply.session, reader) == (session, wanted) => {
                Some(Told::Data(data.to_vec()))
            }
            _ => None,
        })
    }

    // Sends them all, and sends all again, until a reply comes that is wanted.
    pub(crate) fn request<T>(
        &mut self,
        datagrams: &[Vec<u8>],
        what: &str,
        wanted: impl Fn(&Reply<'_>) -> Option<T>,
    ) -> Result<T, Wrong> {
        let start = Instant::now();
        while start.elapsed() < LIMIT {
            datagrams.iter().try_for_each(|datagram| self.send(datagram))?;
            let until = Instant::now() + AGAIN;
            while let Some(len) = self.receive(until)? {
                let bytes = &self.inbox[..len];
                let reply = Reply::read(bytes).ok_or_else(|| Wrong::Unread(what.into(), bytes.to_vec()))?;
                if let Some(told) = wanted(&reply) {
                    return Ok(told);
                }
            }
            self.resent += 1;
        }
        Err(Wrong::Missing(what.into()))
    }

    pub(crate) fn send(&self, datagram: &[u8]) -> Result<(), Wrong> {
        match self.socket.send(datagram) {
            Ok(_) => Ok(()),
            Err(error) => self.pause_if_refused(error),
        }
    }

    // The length of the next datagram, or `None` if none has come by then.
    pub(crate) fn receive(&mut self, until: Instant) -> Result<Option<usize>, Wrong> {
        let left = until.saturating_duration_since(Instant::now());
        if left.is_zero() {
            return Ok(None);
        }
        self.socket.set_read_timeout(Some(left))?;
        match self.socket.recv(&mut self.inbox) {
            Ok(len) => Ok(Some(len)),
            Err(error) => self.pause_if_refused(error).map(|()| None),
        }
    }

    // Nobody listens there yet: the next try may find the host.
    fn pause_if_refused(&self, error: io::Error) -> Result<(), Wrong> {
        match error.kind() {
            io::ErrorKind::WouldBlock | io::ErrorKind::TimedOut | io::ErrorKind::Interrupted => Ok(()),
            io::ErrorKind::ConnectionRefused => {
                std::thread::sleep(AGAIN / 2);
                Ok(())
            }
            _ => Err(Wrong::Io(error)),
        }
    }
}
