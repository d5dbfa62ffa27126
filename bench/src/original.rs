//! The original's agent, over a bridge that does the least that its interface allows.

use crate::agents::{Agent, SAMPLE, TIMEOUT};
use crate::clock;
use hdds_xrce::agent::XrceAgent;
use hdds_xrce::config::XrceAgentConfig;
use hdds_xrce::protocol::XrceError;
use hdds_xrce::proxy::ProxyBridge;
use hdds_xrce::transport::TransportAddr;
use std::hint::black_box;
use std::net::{Ipv4Addr, SocketAddr};
use std::sync::atomic::{AtomicU32, Ordering};
use std::sync::Arc;

/// Hands out 1, 2, 3.. and forgets the data. A load and a store: one thread needs no locked addition.
#[derive(Default)]
struct Least(AtomicU32);

impl Least {
    fn handle(&self) -> Result<u32, XrceError> {
        let handle = self.0.load(Ordering::Relaxed) + 1;
        self.0.store(handle, Ordering::Relaxed);
        Ok(handle)
    }
}

impl ProxyBridge for Least {
    fn create_participant(&self, _domain: u16) -> Result<u32, XrceError> {
        self.handle()
    }

    fn create_topic(&self, _participant: u32, _name: &str, _type: &str) -> Result<u32, XrceError> {
        self.handle()
    }

    fn create_writer(&self, _participant: u32, _topic: u32) -> Result<u32, XrceError> {
        self.handle()
    }

    fn create_reader(&self, _participant: u32, _topic: u32) -> Result<u32, XrceError> {
        self.handle()
    }

    fn write_data(&self, _writer: u32, data: &[u8]) -> Result<(), XrceError> {
        black_box(data);
        Ok(())
    }

    fn read_data(&self, _reader: u32) -> Result<Option<Vec<u8>>, XrceError> {
        Ok(Some(SAMPLE.to_vec()))
    }

    fn delete_entity(&self, _entity: u32) -> Result<(), XrceError> {
        Ok(())
    }
}

pub struct Original {
    agent: XrceAgent,
    bridge: Arc<Least>,
    // One client's address for each first byte of a datagram.
    from: Vec<TransportAddr>,
}

fn address(client: u8) -> TransportAddr {
    TransportAddr::Udp(SocketAddr::from((Ipv4Addr::new(10, 0, 0, client), 2019)))
}

impl Agent for Original {
    fn new() -> Self {
        let config = XrceAgentConfig { max_clients: 255, session_timeout_ms: TIMEOUT, ..XrceAgentConfig::default() };
        let bridge = Arc::new(Least::default());
        let agent = XrceAgent::new(config, bridge.clone()).expect("the original takes 255 clients");
        Self { agent, bridge, from: (0..=255).map(address).collect() }
    }

    fn set_time(&mut self, time: u64) {
        clock::set(time);
    }

    fn read_clock(&mut self) {
        clock::use_machines(true);
    }

    fn deliver(&mut self, datagram: &[u8], sent: &mut impl FnMut(&[u8])) {
        let datagram = black_box(datagram);
        let replies = self.agent.process_incoming(&self.from[datagram[0] as usize], datagram);
        replies.iter().for_each(|(_, reply)| sent(reply));
    }

    fn sweep(&mut self, sent: &mut impl FnMut(&[u8])) {
        let mut ended = self.agent.evict_expired();
        if ended.len() > 1 {
            ended.sort_unstable();
        }
        sent(&ended);
    }

    fn end(&mut self, id: u8, sent: &mut impl FnMut(&[u8])) {
        assert!(self.agent.evict_expired() == [id]);
        sent(&[1]);
    }

    fn handles(&self) -> u32 {
        self.bridge.0.load(Ordering::Relaxed)
    }
}
