//! The original agent as a host over the same bridge to DDS. The bridge counts its entities from 1, as bridges do that have no numbers of
//! their own to give: the original asks for "a unique entity handle" and no more.

use crate::steps::DOMAIN;
use dds::{Cyclone, Dds, Quality, Settings};
use hdds_xrce::agent::XrceAgent;
use hdds_xrce::config::XrceAgentConfig;
use hdds_xrce::protocol::XrceError;
use hdds_xrce::proxy::ProxyBridge;
use hdds_xrce::transport::TransportAddr;
use std::net::UdpSocket;
use std::process::ExitCode;
use std::sync::{Arc, Mutex};
use std::time::Duration;
use xrce_agent::{Bridge, Failed, Handle};

/// DDS, and its handle of entity n at place n - 1.
struct Counted(Mutex<(Dds<Cyclone>, Vec<Handle>)>);

fn failed(_: Failed) -> XrceError {
    XrceError::BridgeError("DDS refused".into())
}

impl Counted {
    fn made(&self, make: impl FnOnce(&mut Dds<Cyclone>) -> Result<Handle, Failed>) -> Result<u32, XrceError> {
        let (dds, handles) = &mut *self.0.lock().expect("DDS");
        handles.push(make(dds).map_err(failed)?);
        Ok(handles.len() as u32)
    }

    fn of(&self, entity: u32) -> Result<Handle, XrceError> {
        let place = (entity as usize).wrapping_sub(1);
        self.0.lock().expect("DDS").1.get(place).copied().ok_or_else(|| failed(Failed))
    }

    fn with<T>(&self, act: impl FnOnce(&mut Dds<Cyclone>) -> Result<T, Failed>) -> Result<T, XrceError> {
        act(&mut self.0.lock().expect("DDS").0).map_err(failed)
    }
}

impl ProxyBridge for Counted {
    fn create_participant(&self, domain: u16) -> Result<u32, XrceError> {
        self.made(|dds| dds.create_participant(domain))
    }

    fn create_topic(&self, participant: u32, name: &str, type_name: &str) -> Result<u32, XrceError> {
        let participant = self.of(participant)?;
        self.made(|dds| dds.create_topic(participant, name.as_bytes(), type_name.as_bytes()))
    }

    fn create_writer(&self, participant: u32, topic: u32) -> Result<u32, XrceError> {
        let (participant, topic) = (self.of(participant)?, self.of(topic)?);
        self.made(|dds| dds.create_writer(participant, topic))
    }

    fn create_reader(&self, participant: u32, topic: u32) -> Result<u32, XrceError> {
        let (participant, topic) = (self.of(participant)?, self.of(topic)?);
        self.made(|dds| dds.create_reader(participant, topic))
    }

    fn write_data(&self, writer: u32, data: &[u8]) -> Result<(), XrceError> {
        let writer = self.of(writer)?;
        self.with(|dds| dds.write_data(writer, data))
    }

    fn read_data(&self, reader: u32) -> Result<Option<Vec<u8>>, XrceError> {
        let reader = self.of(reader)?;
        self.with(|dds| dds.read_data(reader))
    }

    fn delete_entity(&self, entity: u32) -> Result<(), XrceError> {
        let entity = self.of(entity)?;
        self.with(|dds| dds.delete_entity(entity))
    }
}

fn agent() -> Result<XrceAgent, String> {
    let quality = Quality { best_effort: false, history: 64 };
    let settings = Settings { domain_offset: DOMAIN, quality, wait: Duration::from_millis(500), most: 64, domains: 1 };
    let dds = Dds::new(Cyclone::new(settings)?, settings, |_| ());
    let config = XrceAgentConfig { session_timeout_ms: 1500, ..XrceAgentConfig::default() };
    XrceAgent::new(config, Arc::new(Counted(Mutex::new((dds, Vec::new()))))).map_err(|error| format!("{error}"))
}

pub fn serve() -> ExitCode {
    let mut agent = match agent() {
        Ok(agent) => agent,
        Err(why) => {
            eprintln!("unplugged: {why}");
            return ExitCode::FAILURE;
        }
    };
    let socket = UdpSocket::bind("127.0.0.1:0").expect("a socket");
    socket.set_read_timeout(Some(Duration::from_millis(50))).expect("a time limit");
    println!("listening on {}", socket.local_addr().expect("its address"));
    let mut inbox = vec![0; 65_536];
    loop {
        if let Ok((len, from)) = socket.recv_from(&mut inbox) {
            for (to, reply) in agent.process_incoming(&TransportAddr::Udp(from), &inbox[..len]) {
                if let TransportAddr::Udp(to) = to {
                    socket.send_to(&reply, to).expect("sent");
                }
            }
        }
        agent.evict_expired();
    }
}
