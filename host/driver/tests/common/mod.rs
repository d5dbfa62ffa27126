//! A host in a thread of the test, over a bridge that is one queue, and the program `driver` against it.
#![allow(dead_code)]

use std::collections::VecDeque;
use std::ffi::OsStr;
use std::net::UdpSocket;
use std::process::{Command, Output};
use xrce_agent::{replies, Agent, Bridge, Failed, Given, Handle, ALL_WEEK};

/// One queue for whoever writes and reads.
#[derive(Default)]
pub struct Queue(u32, VecDeque<Vec<u8>>);

impl Queue {
    fn make(&mut self) -> Result<Handle, Failed> {
        self.0 += 1;
        Ok(Handle(self.0))
    }
}

impl Bridge for Queue {
    fn create_participant(&mut self, _domain: u16) -> Result<Handle, Failed> {
        self.make()
    }

    fn create_topic(&mut self, _: Handle, _: &[u8], _: &[u8]) -> Result<Handle, Failed> {
        self.make()
    }

    fn create_writer(&mut self, _: Handle, _: Handle) -> Result<Handle, Failed> {
        self.make()
    }

    fn create_reader(&mut self, _: Handle, _: Handle) -> Result<Handle, Failed> {
        self.make()
    }

    fn write_data(&mut self, _: Handle, data: &[u8]) -> Result<(), Failed> {
        self.1.push_back(data.to_vec());
        Ok(())
    }

    fn read_data(&mut self, _: Handle) -> Result<Option<Vec<u8>>, Failed> {
        Ok(self.1.pop_front())
    }

    fn delete_entity(&mut self, _: Handle) -> Result<(), Failed> {
        Ok(())
    }
}

/// A host in a thread of this test, which does with the nth reply what it is told. It ends with the test.
pub fn host(change: impl Fn(usize, &[u8]) -> Option<Vec<u8>> + Send + 'static) -> String {
    behind(|request| vec![request.to_vec()], change)
}

/// The same, and of a datagram that comes it sees those that `way` lets through, now and in that order.
pub fn behind(
    mut way: impl FnMut(&[u8]) -> Vec<Vec<u8>> + Send + 'static,
    change: impl Fn(usize, &[u8]) -> Option<Vec<u8>> + Send + 'static,
) -> String {
    let socket = UdpSocket::bind("127.0.0.1:0").unwrap();
    let address = socket.local_addr().unwrap().to_string();
    std::thread::spawn(move || {
        let (mut agent, mut bridge) = (Agent::new(8, 60_000, &ALL_WEEK).unwrap(), Queue::default());
        let (mut inbox, mut out, mut count) = (vec![0; 65_536], Vec::new(), 0);
        loop {
            let (len, from) = socket.recv_from(&mut inbox).unwrap();
            for datagram in way(&inbox[..len]) {
                agent.serve(&datagram, Given::at(0), &mut out, &mut bridge).unwrap();
                for reply in replies(&out) {
                    count += 1;
                    if let Some(reply) = change(count, reply) {
                        socket.send_to(&reply, from).unwrap();
                    }
                }
            }
        }
    });
    address
}

pub fn driver(words: &[impl AsRef<OsStr>]) -> Output {
    Command::new(env!("CARGO_BIN_EXE_driver")).args(words).output().unwrap()
}

pub fn told(output: &Output) -> (Option<i32>, String, String) {
    let text = |bytes: &[u8]| String::from_utf8_lossy(bytes).into_owned();
    (output.status.code(), text(&output.stdout), text(&output.stderr))
}
