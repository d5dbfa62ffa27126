//! Replay scripts, answered by the original. A bridge call is answered inside `process_incoming`, so the answers that
//! follow a datagram are read ahead, and all its replies are printed with its last event: the original doesn't say
//! which reply stood before which call. Nor can its tables be looked at while a call is open, so a listing that stands
//! between a datagram's answers is taken from another one that is led to the same place.

use crate::clock;
use crate::hours;
use crate::layers::dump;
use crate::listing::listing_line;
use crate::refusals::refused;
use crate::words::{bytes, hex, number, silent, words};
use hdds_xrce::agent::XrceAgent;
use hdds_xrce::config::XrceAgentConfig;
use hdds_xrce::protocol::{parse_message, XrceError};
use hdds_xrce::proxy::ProxyBridge;
use hdds_xrce::transport::TransportAddr;
use std::collections::VecDeque;
use std::sync::{Arc, Mutex};

/// What a host answers to a bridge call.
#[derive(Debug, Clone, PartialEq, Eq)]
pub enum Answer {
    Created(u32),
    Done,
    Data(Vec<u8>),
    NoData,
    Failed,
}

/// Where a bridge gets its answers from: a script that is read, or one that is being made.
pub trait Answers: Send {
    /// The answer to `call`; only those that `fits` allows are of its kind.
    fn answer(&mut self, call: &str, fits: fn(&Answer) -> bool) -> Answer;
}

/// The original's bridge over such answers.
pub struct Bridge<A: Answers>(pub Mutex<A>);

impl<A: Answers> Bridge<A> {
    fn ask(&self, call: String, fits: fn(&Answer) -> bool) -> Result<Answer, XrceError> {
        match self.0.lock().unwrap().answer(&call, fits) {
            Answer::Failed => Err(XrceError::BridgeError("failed".into())),
            answer => Ok(answer),
        }
    }

    fn create(&self, call: String) -> Result<u32, XrceError> {
        match self.ask(call, |answer| matches!(answer, Answer::Created(_) | Answer::Failed))? {
            Answer::Created(handle) => Ok(handle),
            other => unreachable!("{other:?}"),
        }
    }

    fn act(&self, call: String) -> Result<(), XrceError> {
        self.ask(call, |answer| matches!(answer, Answer::Done | Answer::Failed)).map(|_| ())
    }
}

impl<A: Answers> ProxyBridge for Bridge<A> {
    fn create_participant(&self, domain: u16) -> Result<u32, XrceError> {
        self.create(format!("create_participant {domain}"))
    }

    fn create_topic(&self, participant: u32, name: &str, type_name: &str) -> Result<u32, XrceError> {
        self.create(format!("create_topic {participant} {} {}", hex(name.as_bytes()), hex(type_name.as_bytes())))
    }

    fn create_writer(&self, participant: u32, topic: u32) -> Result<u32, XrceError> {
        self.create(format!("create_writer {participant} {topic}"))
    }

    fn create_reader(&self, participant: u32, topic: u32) -> Result<u32, XrceError> {
        self.create(format!("create_reader {participant} {topic}"))
    }

    fn write_data(&self, writer: u32, data: &[u8]) -> Result<(), XrceError> {
        self.act(format!("write_data {writer} {}", hex(data)))
    }

    fn read_data(&self, reader: u32) -> Result<Option<Vec<u8>>, XrceError> {
        let fits = |answer: &Answer| matches!(answer, Answer::Data(_) | Answer::NoData | Answer::Failed);
        match self.ask(format!("read_data {reader}"), fits)? {
            Answer::Data(data) => Ok(Some(data)),
            _ => Ok(None),
        }
    }

    fn delete_entity(&self, entity: u32) -> Result<(), XrceError> {
        self.act(format!("delete_entity {entity}"))
    }
}

/// An agent of the original with the two limits that document 01 keeps.
pub fn agent<A: Answers + 'static>(max: usize, timeout: u64, bridge: Arc<Bridge<A>>) -> Result<XrceAgent, XrceError> {
    let config = XrceAgentConfig { max_clients: max, session_timeout_ms: timeout, ..XrceAgentConfig::default() };
    XrceAgent::new(config, bridge)
}

/// An address of its own for each datagram: the address decides nothing.
pub fn address(count: usize) -> TransportAddr {
    TransportAddr::Serial(count.to_string())
}

// A DATA submessage touches its session and does nothing else.
fn touch(agent: &mut XrceAgent, id: u8, time: u64) {
    clock::set(time);
    agent.process_incoming(&address(0), &[id, 0, 0, 0, 0x09, 0, 2, 0, 0, 0]);
}

/// Removes one session. The agent of the original has no call for that, so this one alone is left to expire, and the
/// others get their last activity back. `timeout` is below the greatest time.
pub fn remove(agent: &mut XrceAgent, timeout: u64, id: u8) -> bool {
    if agent.sessions().get(id).is_none() {
        return false;
    }
    let others: Vec<(u8, u64)> = agent
        .sessions()
        .sessions
        .values()
        .filter(|session| session.session_id != id)
        .map(|session| (session.session_id, clock::milliseconds(session.last_activity)))
        .collect();
    touch(agent, id, 0);
    others.iter().for_each(|(other, _)| touch(agent, *other, timeout + 1));
    clock::set(timeout + 1);
    assert_eq!(agent.evict_expired(), [id]);
    others.iter().for_each(|(other, last)| touch(agent, *other, *last));
    true
}

/// The answers of one datagram in a script, and what is printed for them.
struct Ahead {
    answers: VecDeque<Answer>,
    lines: Vec<String>,
    unanswered: bool,
}

impl Answers for Ahead {
    fn answer(&mut self, call: &str, fits: fn(&Answer) -> bool) -> Answer {
        self.lines.push(format!("call {call}"));
        while let Some(answer) = self.answers.pop_front() {
            if fits(&answer) {
                return answer;
            }
            self.lines.push("refused 15".into());
        }
        self.unanswered = true;
        Answer::Failed
    }
}

pub struct Replay {
    bridge: Arc<Bridge<Ahead>>,
    agent: Option<XrceAgent>,
    timeout: u64,
    windows: Vec<hours::Window>,
    /// The place of the set-up in the script.
    set_up_at: usize,
}

fn answer(line: &str) -> Option<Answer> {
    match *words(line) {
        ["created", room, handle] => number::<u64>(room).and(number(handle).map(Answer::Created)),
        ["done", room] => number::<u64>(room).map(|_| Answer::Done),
        ["data", room, sample] => number::<u64>(room).and(bytes(sample).map(Answer::Data)),
        ["none", room] => number::<u64>(room).map(|_| Answer::NoData),
        ["failed", room] => number::<u64>(room).map(|_| Answer::Failed),
        _ => None,
    }
}

// The session that a line asks to be listed.
fn asked(line: &str) -> Option<u8> {
    match *words(line) {
        ["list", id] => number(id),
        _ => None,
    }
}

// The minute from which on a line asks for the first open one.
fn asked_from(line: &str) -> Option<(u8, u16)> {
    match *words(line) {
        ["open", day, minute] => Some((number(day)?, number(minute)?)),
        _ => None,
    }
}

/// What a line hands in: a datagram with its time, weekday and minute.
struct HandedIn {
    time: u64,
    bytes: Vec<u8>,
    day: u8,
    minute: u16,
}

fn handed_in(line: &str) -> Option<HandedIn> {
    let ["datagram", time, room, datagram, ref rest @ ..] = words(line)[..] else { return None };
    number::<u64>(room)?;
    let (day, minute) = hours::minute_words(rest)?;
    Some(HandedIn { time: number(time)?, bytes: bytes(datagram)?, day, minute })
}

// A line that only asks, and may stand between a datagram's answers.
fn asks(line: &str) -> bool {
    asked(line).is_some() || asked_from(line).is_some()
}

/// How many of the lines that follow a datagram belong to it: all up to the last answer.
fn follows(lines: &[&str]) -> usize {
    let all = lines.iter().take_while(|line| silent(line) || answer(line).is_some() || asks(line)).count();
    lines[..all].iter().rposition(|line| answer(line).is_some()).map_or(0, |last| last + 1)
}

fn answers(lines: &[&str]) -> VecDeque<Answer> {
    lines.iter().filter_map(|line| answer(line)).collect()
}

/// The submessages of a datagram that reads, each behind the datagram's header.
fn apart(datagram: &[u8]) -> Vec<Vec<u8>> {
    let (mut all, mut at) = (Vec::new(), 4);
    while at < datagram.len() {
        let end = at + 4 + usize::from(u16::from_le_bytes([datagram[at + 2], datagram[at + 3]]));
        all.push([&datagram[..4], &datagram[at..end]].concat());
        at = end;
    }
    all
}

impl Replay {
    pub fn new() -> Self {
        let ahead = Ahead { answers: VecDeque::new(), lines: Vec::new(), unanswered: false };
        let bridge = Arc::new(Bridge(Mutex::new(ahead)));
        Self { bridge, agent: None, timeout: 0, windows: hours::all_week(), set_up_at: 0 }
    }

    /// What the whole script prints.
    pub fn run(&mut self, script: &[&str]) -> Vec<String> {
        let mut printed = Vec::new();
        let mut at = 0;
        while at < script.len() {
            let line = script[at];
            at += 1;
            if silent(line) {
                continue;
            }
            let behind = &script[at..at + follows(&script[at..])];
            match self.datagram(line, at, answers(behind)) {
                Some(lines) => {
                    printed.extend(self.with_questions(&script[self.set_up_at..at], behind, &lines));
                    at += behind.len();
                }
                None => {
                    let lines = self.event(line).unwrap_or_else(|| vec!["bad line".into()]);
                    if lines == ["ok"] {
                        self.set_up_at = at - 1;
                    }
                    printed.extend(lines);
                }
            }
        }
        printed
    }

    /// A datagram's lines with what is asked between its answers, each event's lines in its place. `since` ends with the datagram,
    /// and `behind` follows it.
    fn with_questions(&self, since: &[&str], behind: &[&str], lines: &[String]) -> Vec<String> {
        let mut events = lines.split_inclusive(|line| !line.starts_with("reply "));
        let mut all = events.next().unwrap_or_default().to_vec();
        for (at, line) in behind.iter().enumerate() {
            match (asked(line), asked_from(line)) {
                (Some(id), _) => all.push(self.listed_between(since, &behind[..at], id)),
                (_, Some((day, minute))) => all.push(hours::open_line(&self.windows, day, minute)),
                _ if silent(line) => {}
                _ => all.extend_from_slice(events.next().unwrap_or_default()),
            }
        }
        all.extend(events.flatten().cloned());
        all
    }

    /// The listing behind some of a datagram's answers: of the agent as it stands where no call is open then.
    fn listed_between(&self, since: &[&str], answered: &[&str], id: u8) -> String {
        let open = at_open_call(since, answered);
        let agent = open.as_ref().unwrap_or(self).agent.as_ref().expect("a datagram was taken");
        listing_line(agent.sessions(), id)
    }

    fn datagram(&mut self, line: &str, count: usize, answers: VecDeque<Answer>) -> Option<Vec<String>> {
        let HandedIn { time, bytes: datagram, day, minute } = handed_in(line)?;
        let agent = self.agent.as_mut()?;
        if !hours::is_minute(day, minute) {
            return Some([vec!["refused 20".into()], vec!["refused 15".into(); answers.len()]].concat());
        }
        *self.bridge.0.lock().unwrap() = Ahead { answers, lines: Vec::new(), unanswered: false };
        clock::set(time);
        let replies = agent.process_incoming(&address(count), &datagram);
        let mut ahead = self.bridge.0.lock().unwrap();
        let mut lines = std::mem::take(&mut ahead.lines);
        if ahead.unanswered {
            lines.push("outside: the original can't wait for an answer".into());
            return Some(lines);
        }
        match parse_message(&datagram) {
            Ok(_) => {
                lines.extend(replies.iter().map(|(_, reply)| format!("reply {}", hex(reply))));
                lines.push("end".into());
            }
            Err(error) => {
                assert!(lines.is_empty() && replies.is_empty());
                lines.push(refused(&error));
            }
        }
        lines.extend(ahead.answers.drain(..).map(|_| "refused 15".to_string()));
        Some(lines)
    }

    fn event(&mut self, line: &str) -> Option<Vec<String>> {
        let words = words(line);
        if let ["setup", max, timeout, ref rest @ ..] = words[..] {
            return Some(vec![self.setup(number(max)?, number(timeout)?, set_up_windows(rest)?)]);
        }
        let agent = self.agent.as_mut()?;
        if answer(line).is_some() {
            return Some(vec!["refused 15".into()]);
        }
        let line = match *words {
            ["remove", id] => {
                let id = number(id)?;
                if remove(agent, self.timeout, id) { "removed" } else { "absent" }.into()
            }
            ["sweep", time, room] => {
                clock::set(number(time)?);
                number::<u64>(room)?;
                let mut gone = agent.evict_expired();
                gone.sort();
                gone.iter().fold("swept".to_string(), |line, id| format!("{line} {id}"))
            }
            ["list", id] => listing_line(agent.sessions(), number(id)?),
            ["open", ..] => asked_from(line).map(|(day, minute)| hours::open_line(&self.windows, day, minute))?,
            ["dump"] => return Some(dump(agent.sessions())),
            _ => return None,
        };
        Some(vec![line])
    }

    fn setup(&mut self, max: u64, timeout: u64, windows: Vec<hours::Window>) -> String {
        if max > 255 {
            return "refused 16".into();
        }
        if !hours::fit(&windows) {
            return "refused 19".into();
        }
        match agent(max as usize, timeout, self.bridge.clone()) {
            Ok(agent) => {
                self.agent = Some(agent);
                self.timeout = timeout;
                self.windows = windows;
                "ok".into()
            }
            Err(error) => format!("outside: {error}"),
        }
    }
}

// The windows in the words behind a set-up's limits; without the word every minute is open.
fn set_up_windows(words: &[&str]) -> Option<Vec<hours::Window>> {
    match words {
        [] => Some(hours::all_week()),
        ["windows", all @ ..] => all.iter().map(|word| hours::Window::read(word)).collect(),
        _ => None,
    }
}

/// The original while a call of the last line's datagram is open, or none if none is: led there over the script since its
/// set-up, and over the datagram's submessages one by one until these answers don't suffice. The call that is then open
/// fails, which leaves the objects as they were when it was made: DELETE had dropped its own, and CREATE lists none.
fn at_open_call(since: &[&str], answered: &[&str]) -> Option<Replay> {
    let (last, before) = since.split_last()?;
    let HandedIn { time, bytes: datagram, day, minute } = handed_in(last)?;
    parse_message(&datagram).ok().filter(|_| hours::is_minute(day, minute))?;
    let mut replay = Replay::new();
    // Neither prints to anyone here, nor changes anything.
    let changing: Vec<&str> = before.iter().copied().filter(|line| !asks(line) && *line != "dump").collect();
    replay.run(&changing);
    let agent = replay.agent.as_mut()?;
    let mut answers = answers(answered);
    answers.push_back(Answer::Failed);
    *replay.bridge.0.lock().unwrap() = Ahead { answers, lines: Vec::new(), unanswered: false };
    clock::set(time);
    for submessage in apart(&datagram) {
        agent.process_incoming(&address(0), &submessage);
        if replay.bridge.0.lock().unwrap().answers.is_empty() {
            return Some(replay);
        }
    }
    None
}
