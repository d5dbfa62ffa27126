//! A flood of random, damaged and replayed datagrams on a running host, from many ports. A session that was opened before
//! goes on all the while.

use crate::chance::Chance;
use crate::crowd::Crowd;
use crate::sys::terminate;
use crate::witness::Witness;
use std::io::{BufRead, BufReader, Read};
use std::net::SocketAddr;
use std::process::{Child, Command, Stdio};
use std::time::{Duration, Instant};

pub const DATAGRAMS: u64 = 100_000;
const ROUNDS: u64 = 8;
/// So few at once that the host's socket holds them all.
const BATCH: u64 = 48;
const CLIENTS: &str = "48";
const TIMEOUT: Duration = Duration::from_millis(1000);

/// The host's bridge: in memory every seventh call fails, and DDS refuses by itself, most names of the flood among others.
#[derive(Clone, Copy, Debug, PartialEq, Eq)]
pub enum Bridge {
    Memory,
    Dds,
}

impl Bridge {
    fn flags(self) -> &'static [&'static str] {
        match self {
            Bridge::Memory => &["--bridge-fails", "7"],
            Bridge::Dds => &["--bridge", "dds", "--domain-offset", "80"],
        }
    }

    /// What a host says at its end before it tells how many datagrams it served.
    fn last_words(self) -> &'static str {
        match self {
            Bridge::Memory => "",
            Bridge::Dds => "0 entities left in DDS\n",
        }
    }
}

/// A host that is ended whatever happens.
struct Running(Child);

impl Drop for Running {
    fn drop(&mut self) {
        let _ = self.0.kill();
        let _ = self.0.wait();
    }
}

impl Running {
    fn start(program: &str, bridge: Bridge) -> Result<(Self, SocketAddr), String> {
        let child = Command::new(program)
            .args(["udp", "--port", "0", "--max-clients", CLIENTS, "--log", "error"])
            .args(bridge.flags())
            .args(["--sweep-ms", "50", "--timeout-ms", &TIMEOUT.as_millis().to_string()])
            .stdout(Stdio::piped())
            .stderr(Stdio::piped())
            .spawn()
            .map_err(|error| format!("{program}: {error}"))?;
        let mut running = Running(child);
        let mut line = String::new();
        let stdout = running.0.stdout.as_mut().ok_or("no standard output")?;
        BufReader::new(stdout).read_line(&mut line).map_err(|error| error.to_string())?;
        let address = line.trim_end().strip_prefix("listening on ").and_then(|address| address.parse().ok());
        address.map(|address| (running, address)).ok_or(format!("the host said '{}'", line.trim_end()))
    }

    /// Ends it by SIGTERM; how many datagrams it served.
    fn end(mut self, bridge: Bridge) -> Result<u64, String> {
        terminate(&self.0);
        let mut text = String::new();
        let stderr = self.0.stderr.as_mut().ok_or("no standard error")?;
        stderr.read_to_string(&mut text).map_err(|error| error.to_string())?;
        let status = self.0.wait().map_err(|error| error.to_string())?;
        if !status.success() {
            return Err(format!("the host ended with {status}: {text}"));
        }
        let counted = text.trim_end().strip_prefix(bridge.last_words()).and_then(|rest| rest.strip_prefix("served "));
        let count = counted.and_then(|rest| rest.strip_suffix(" datagrams"));
        count.and_then(|count| count.parse().ok()).ok_or(format!("the host said '{text}' at its end"))
    }
}

// The flood's sessions expire, and the table has room for new ones: so the ids wrap.
fn pause(witness: &mut Witness) -> Result<(), String> {
    let start = Instant::now();
    while start.elapsed() < TIMEOUT + Duration::from_millis(150) {
        witness.exchange()?;
        std::thread::sleep(Duration::from_millis(20));
    }
    Ok(())
}

/// What to print, or what didn't hold.
pub fn run(seed: u64, program: &str, bridge: Bridge) -> Result<String, String> {
    let start = Instant::now();
    let (host, address) = Running::start(program, bridge)?;
    let mut chance = Chance::new(seed);
    let mut witness = Witness::new(address)?;
    let mut crowd = Crowd::new(address, witness.session)?;
    for round in 0..ROUNDS {
        crowd.fill()?;
        while crowd.sent < DATAGRAMS * (round + 1) / ROUNDS {
            crowd.batch(&mut chance, BATCH)?;
            witness.exchange()?;
        }
        crowd.drain()?;
        pause(&mut witness)?;
    }
    crowd.held()?;
    let served = host.end(bridge)?;
    if witness.repeated < witness.exchanges / 2 {
        return Err(format!("only {} messages were repeated in {} exchanges", witness.repeated, witness.exchanges));
    }
    if crowd.sent < DATAGRAMS || served < crowd.sent + 2 * witness.exchanges {
        return Err(format!("the host served {served} of {} datagrams", crowd.sent));
    }
    let took = start.elapsed().as_millis();
    let (sent, replies, exchanges, repeated) = (crowd.sent, crowd.replies, witness.exchanges, witness.repeated);
    let (opened, full) = (crowd.opened, crowd.full);
    Ok(format!(
        "{sent} datagrams from {} ports, {replies} replies, {opened} sessions opened (ids wrapped {} times), \
         {full} times full; the witness made {exchanges} exchanges and had {repeated} messages repeated; the host served {served} and ended with 0; {took} ms",
        crowd.ports(),
        crowd.wrapped
    ))
}
