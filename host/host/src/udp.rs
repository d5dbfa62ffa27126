//! The loop over the socket: one thread, one datagram at a time, sweeps by its own clock.

use crate::args::Options;
use crate::bridges::{self, SessionBridge};
use crate::log;
use crate::signals;
use crate::week;
use std::io::{self, ErrorKind, Write};
use std::net::{SocketAddr, UdpSocket};
use std::time::{Duration, Instant};
use xrce_agent::{replies, room, Agent, Answer, Answered, Given, Refusal};

/// A datagram whose replies may take more isn't served: 8 bytes of ACKNACK can ask for 16 messages of 1,024 bytes. What ACKNACKs
/// among rebuilt submessages ask for shows only in a refusal, 13: so a datagram with a FRAGMENT gets that much room at once.
const MOST_REPLIED: usize = 1 << 20;

/// How long a signal may wait for the loop to look.
const LOOK: Duration = Duration::from_millis(100);

struct Host {
    socket: UdpSocket,
    agent: Agent,
    bridge: Box<dyn SessionBridge>,
    // The replies of one call, and the greatest datagram that UDP carries.
    out: Vec<u8>,
    inbox: Vec<u8>,
    start: Instant,
    utc_offset: i64,
    sweep: Duration,
    next_sweep: Instant,
    served: u64,
}

pub fn run(options: &Options) -> io::Result<()> {
    let told =
        |error: io::Error| io::Error::other(format!("can't listen on {}:{}: {error}", options.bind, options.port));
    let agent = set_up(options)?;
    let bridge = bridges::open(options).map_err(io::Error::other)?;
    signals::listen();
    let socket = UdpSocket::bind((options.bind, options.port)).map_err(told)?;
    let sweep = Duration::from_millis(options.sweep_ms);
    socket.set_read_timeout(Some(LOOK.min(sweep)))?;
    announce(socket.local_addr()?)?;
    let start = Instant::now();
    let mut host = Host {
        socket,
        agent,
        bridge,
        out: Vec::new(),
        inbox: vec![0; 65_536],
        start,
        utc_offset: options.utc_offset,
        sweep,
        next_sweep: start + sweep,
        served: 0,
    };
    host.until_asked()?;
    host.bridge.close();
    eprintln!("served {} datagrams", host.served);
    Ok(())
}

// Windows that don't fit together end it before it listens.
fn set_up(options: &Options) -> io::Result<Agent> {
    let refused = |refusal: Refusal| io::Error::other(format!("the agent can't be set up: {refusal}"));
    let agent = Agent::new(options.max_clients, options.timeout_ms, &options.windows).map_err(refused)?;
    let (day, minute) = week::now(options.utc_offset);
    match agent.first_open(day, minute).map_err(refused)? {
        Some(next) if next == (day, minute) => {}
        Some((day, minute)) => log!(Info, "writing is closed until weekday {day}, minute {minute}"),
        None => log!(Info, "writing is never open"),
    }
    Ok(agent)
}

fn announce(address: SocketAddr) -> io::Result<()> {
    let mut stdout = io::stdout();
    writeln!(stdout, "listening on {address}")?;
    stdout.flush()
}

impl Host {
    fn until_asked(&mut self) -> io::Result<()> {
        while !signals::asked_to_end() {
            match self.socket.recv_from(&mut self.inbox) {
                Ok((len, from)) => self.datagram(len, from)?,
                Err(error) if idle(&error) => {}
                Err(error) => log!(Error, "receiving: {error}"),
            }
            if self.next_sweep <= Instant::now() {
                self.sweep()?;
            }
        }
        Ok(())
    }

    fn now(&self) -> u64 {
        self.start.elapsed().as_millis() as u64
    }

    // What the agent is given with a datagram.
    fn given(&self) -> Given {
        let (day, minute) = week::now(self.utc_offset);
        Given { time_ms: self.now(), day, minute }
    }

    fn datagram(&mut self, len: usize, from: SocketAddr) -> io::Result<()> {
        self.served += 1;
        let given = self.given();
        log!(Debug, "{from}: {len} bytes");
        let room = room(&self.inbox[..len], 0);
        if MOST_REPLIED < room {
            log!(Warn, "{from}: not served: its replies may take {room} bytes");
            return Ok(());
        }
        self.out.resize(MOST_REPLIED, 0);
        self.out.shrink_to_fit();
        match self.agent.incoming(&self.inbox[..len], given, &mut self.out) {
            Ok(outcome) => send(&self.socket, from, &self.out[..outcome.wrote]),
            Err(refusal) => {
                log!(Warn, "{from}: refused {}: {refusal}", refusal.number());
                return Ok(());
            }
        }
        self.calls(len, from)
    }

    // Makes the calls of one datagram. Replies leave with each, so an output for one call is enough. It was long enough for the
    // datagram, but behind a call there may be more rebuilt ACKNACKs.
    fn calls(&mut self, len: usize, from: SocketAddr) -> io::Result<()> {
        while let (Some(session), Some(call)) = (self.agent.open_session(), self.agent.open_call()) {
            log!(Debug, "session {session}: {call}");
            self.bridge.serve_session(session);
            let answered = call.make(&mut *self.bridge);
            let sample = if let Answered::Sample(sample) = &answered { sample.len() } else { 0 };
            self.out.resize(self.out.len().max(room(&self.inbox[..len], sample)), 0);
            let wrote = self.answer(&answered).map_err(io::Error::other)?;
            send(&self.socket, from, &self.out[..wrote]);
        }
        Ok(())
    }

    // The call must not stay open: where the output is too short (13) it is lengthened, and a sample that no DATA can carry (12), or
    // that can't be held (14), is told as a failed read.
    fn answer(&mut self, answered: &Answered) -> Result<usize, Refusal> {
        let mut answer = answered.lend();
        loop {
            match self.agent.answer(answer, &mut self.out) {
                Ok(outcome) => return Ok(outcome.wrote),
                Err(Refusal::OutputTooShort) => self.out.resize(2 * self.out.len(), 0),
                Err(refusal) if answer != Answer::Failed => {
                    log!(Error, "an answer was refused {}: {refusal}", refusal.number());
                    answer = Answer::Failed;
                }
                Err(refusal) => return Err(refusal),
            }
        }
    }

    fn sweep(&mut self) -> io::Result<()> {
        self.next_sweep = Instant::now() + self.sweep;
        let (time, mut ids) = (self.now(), [0; 255]);
        for id in self.agent.sweep(time, &mut ids).map_err(io::Error::other)? {
            log!(Info, "session {id} expired");
            self.bridge.end_session(*id);
        }
        Ok(())
    }
}

// No datagram has come, or a signal has.
fn idle(error: &io::Error) -> bool {
    matches!(error.kind(), ErrorKind::WouldBlock | ErrorKind::TimedOut | ErrorKind::Interrupted)
}

// Each reply is a datagram of its own. One that can't be sent is lost, as UDP may lose any.
fn send(socket: &UdpSocket, to: SocketAddr, wrote: &[u8]) {
    for reply in replies(wrote) {
        log!(Debug, "{to}: reply of {} bytes", reply.len());
        if let Err(error) = socket.send_to(reply, to) {
            log!(Warn, "{to}: a reply of {} bytes wasn't sent: {error}", reply.len());
        }
    }
}
