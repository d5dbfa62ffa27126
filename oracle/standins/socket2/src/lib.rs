//! Stands in for the crate `socket2`: the names that transport.rs uses. No socket is ever opened here, and every call
//! fails; transport.rs lies outside the comparison and only has to build.

use std::io::{Error, ErrorKind, Result};
use std::mem::MaybeUninit;
use std::net::SocketAddr;

pub struct Domain;
pub struct Type;
pub struct Protocol;
pub struct SockAddr(SocketAddr);
pub struct Socket;

impl Domain {
    pub const IPV4: Domain = Domain;
}

impl Type {
    pub const DGRAM: Type = Type;
}

impl Protocol {
    pub const UDP: Protocol = Protocol;
}

impl From<SocketAddr> for SockAddr {
    fn from(addr: SocketAddr) -> Self {
        SockAddr(addr)
    }
}

impl SockAddr {
    pub fn as_socket(&self) -> Option<SocketAddr> {
        Some(self.0)
    }
}

fn none<T>() -> Result<T> {
    Err(Error::from(ErrorKind::Unsupported))
}

impl Socket {
    pub fn new(_domain: Domain, _kind: Type, _protocol: Option<Protocol>) -> Result<Socket> {
        none()
    }

    pub fn set_reuse_address(&self, _on: bool) -> Result<()> {
        none()
    }

    pub fn bind(&self, _addr: &SockAddr) -> Result<()> {
        none()
    }

    pub fn set_nonblocking(&self, _on: bool) -> Result<()> {
        none()
    }

    pub fn recv_from(&self, _buf: &mut [MaybeUninit<u8>]) -> Result<(usize, SockAddr)> {
        none()
    }

    pub fn send_to(&self, _buf: &[u8], _addr: &SockAddr) -> Result<usize> {
        none()
    }
}
