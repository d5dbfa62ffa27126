//! The clients of the flood: many ports, datagrams by chance, and what their replies say.

use crate::chance::Chance;
use crate::datagrams::{damage, good_datagram};
use std::collections::HashSet;
use std::io::ErrorKind;
use std::net::{SocketAddr, UdpSocket};
use std::time::{Duration, Instant};
use wire::{Body, Datagram, Reply};

const PORTS: usize = 64;
const REMEMBERED: usize = 512;

pub struct Crowd {
    sockets: Vec<UdpSocket>,
    // The sessions that each port has named: a reply of another session isn't its own.
    named: Vec<HashSet<u8>>,
    remembered: Vec<Vec<u8>>,
    live: Vec<u8>,
    witness: u8,
    inbox: Vec<u8>,
    pub sent: u64,
    pub replies: u64,
    pub opened: u64,
    pub full: u64,
    pub wrapped: u64,
    last: u8,
}

impl Crowd {
    pub fn new(host: SocketAddr, witness: u8) -> Result<Self, String> {
        let socket = || -> std::io::Result<UdpSocket> {
            let socket = UdpSocket::bind("127.0.0.1:0")?;
            socket.connect(host)?;
            socket.set_nonblocking(true)?;
            Ok(socket)
        };
        let sockets: Result<Vec<_>, _> = (0..PORTS).map(|_| socket()).collect();
        Ok(Crowd {
            sockets: sockets.map_err(|error| error.to_string())?,
            named: vec![HashSet::new(); PORTS],
            remembered: Vec::new(),
            live: vec![0],
            witness,
            inbox: vec![0; 65_536],
            sent: 0,
            replies: 0,
            opened: 0,
            full: 0,
            wrapped: 0,
            last: 0,
        })
    }

    pub fn ports(&self) -> usize {
        self.sockets.len()
    }

    // The header's session decides and not the address (document 01), so the flood may not name the witness's session.
    fn send(&mut self, port: usize, mut datagram: Vec<u8>) -> Result<(), String> {
        if let Some(session) = datagram.first_mut() {
            if *session == self.witness {
                *session = 0;
            }
            self.named[port].insert(*session);
        }
        match self.sockets[port].send(&datagram) {
            Ok(_) => self.sent += 1,
            Err(error) if error.kind() == ErrorKind::WouldBlock => {}
            Err(error) => return Err(error.to_string()),
        }
        Ok(())
    }

    /// Opens sessions until the table is full.
    pub fn fill(&mut self) -> Result<(), String> {
        self.live = vec![0];
        let (full, start) = (self.full, Instant::now());
        while self.full == full {
            if start.elapsed() > Duration::from_secs(10) {
                return Err("the table never got full".into());
            }
            self.send(0, Datagram::new(0, 0).create_client(*b"many").bytes())?;
            std::thread::sleep(Duration::from_micros(200));
            self.drain()?;
        }
        Ok(())
    }

    /// Datagrams from any ports, then what came back so far.
    pub fn batch(&mut self, chance: &mut Chance, count: u64) -> Result<(), String> {
        for _ in 0..count {
            let datagram = self.datagram(chance);
            self.send(chance.below(PORTS), datagram)?;
        }
        if chance.once_in(20) {
            let len = 1000 + chance.below(60_000);
            self.send(chance.below(PORTS), chance.bytes(len))?;
        }
        self.drain()
    }

    fn datagram(&mut self, chance: &mut Chance) -> Vec<u8> {
        if chance.once_in(8) {
            let len = chance.below(64);
            return chance.bytes(len);
        }
        if chance.once_in(4) && !self.remembered.is_empty() {
            return self.remembered[chance.below(self.remembered.len())].clone();
        }
        let mut datagram = good_datagram(chance, &self.live);
        if self.remembered.len() < REMEMBERED {
            self.remembered.push(datagram.clone());
        } else {
            self.remembered[chance.below(REMEMBERED)] = datagram.clone();
        }
        if chance.once_in(3) {
            damage(chance, &mut datagram);
        }
        datagram
    }

    /// Reads the replies that are there.
    pub fn drain(&mut self) -> Result<(), String> {
        for port in 0..PORTS {
            loop {
                match self.sockets[port].recv(&mut self.inbox) {
                    Ok(len) => self.reply(port, len)?,
                    Err(error) if error.kind() == ErrorKind::WouldBlock => break,
                    Err(error) => return Err(error.to_string()),
                }
            }
        }
        Ok(())
    }

    fn reply(&mut self, port: usize, len: usize) -> Result<(), String> {
        let reply = Reply::read(&self.inbox[..len]).ok_or("a port got bytes that are no reply")?;
        self.replies += 1;
        let (session, about_client) = (reply.session, matches!(reply.body, Body::Status { object: 0, .. }));
        if session == self.witness {
            return Err("a port got a reply of the witness's session".into());
        }
        if !about_client && !self.named[port].contains(&session) {
            return Err(format!("a port got a reply of session {session}, which it never named"));
        }
        match reply.body {
            Body::Status { object: 0, code: wire::OK } if port == 0 => self.opened_one(session),
            Body::Status { object: 0, code: wire::ERR_RESOURCES } if session == 0 => self.full += 1,
            _ => {}
        }
        Ok(())
    }

    fn opened_one(&mut self, session: u8) {
        if session != 0 && !self.live.contains(&session) {
            self.opened += 1;
            self.wrapped += u64::from(session < self.last);
            self.last = session;
            self.live.push(session);
        }
    }

    /// Whether the flood reached what it is for.
    pub fn held(&self) -> Result<(), String> {
        if self.opened < 256 || self.wrapped == 0 {
            return Err(format!("only {} sessions were opened: the ids didn't wrap", self.opened));
        }
        Ok(())
    }
}
