//! Replay scripts by chance, inside the domain of comparison of documents 01 and 02. The original runs along: the answers
//! to its bridge calls are drawn here and written down behind their datagram, and its tables say what the next one may
//! hold.

use crate::chance::Chance;
use crate::clock;
use crate::datagrams;
use crate::hours::{all_week, Window};
use crate::listing::listing;
use crate::make_hours;
use crate::replay::{address, agent, remove, Answer, Answers, Bridge};
use crate::texts;
use crate::words::hex;
use hdds_xrce::agent::XrceAgent;
use hdds_xrce::protocol::{parse_message, ObjectKind, StatusCode, Submessage};
use std::collections::{BTreeMap, BTreeSet};
use std::sync::{Arc, Mutex};

/// Draws an answer to each call.
struct Drawn {
    chance: Chance,
    answers: Vec<Answer>,
}

impl Answers for Drawn {
    fn answer(&mut self, call: &str, fits: fn(&Answer) -> bool) -> Answer {
        let chance = &mut self.chance;
        let length = match chance.below(600) {
            0 => 65_533,
            1..=8 => 1016,
            9..=200 => 0,
            _ => chance.below(30),
        };
        let sample = if call.starts_with("read_data") { chance.bytes(length) } else { Vec::new() };
        let handle = match chance.below(3) {
            0 => chance.below(4) as u32,
            1 => chance.word() as u32,
            _ => u32::MAX - chance.below(3) as u32,
        };
        let all = [Answer::Failed, Answer::Created(handle), Answer::Done, Answer::Data(sample), Answer::NoData];
        let of_its_kind: Vec<&Answer> = all.iter().filter(|answer| fits(answer)).collect();
        let answer = if chance.one_in(6) { of_its_kind[0] } else { chance.pick(&of_its_kind[1..]) };
        self.answers.push(answer.clone());
        answer.clone()
    }
}

struct Making {
    chance: Chance,
    bridge: Arc<Bridge<Drawn>>,
    agent: XrceAgent,
    /// The parent number of each session's objects: the original's records have none.
    parents: BTreeMap<(u8, u16), u16>,
    windows: Vec<Window>,
    timeout: u64,
    time: u64,
    last_opened: u8,
    lines: Vec<String>,
}

pub fn scripts(seed: u64, count: u64) -> Vec<String> {
    let mut lines = Vec::new();
    for script in 0..count {
        lines.push(format!("# script {script} of seed {seed}"));
        let mut making = Making::new(Chance::new(seed.wrapping_mul(0x1_0000_0001).wrapping_add(script)));
        making.run(script);
        lines.append(&mut making.lines);
    }
    lines
}

/// What one number or stream of a session may hold after any answers: enough to stay inside the domain. Of an object, its
/// kind and parent number.
struct Domain {
    objects: BTreeMap<u16, BTreeSet<(u8, u16)>>,
    streams: BTreeSet<u8>,
    /// Whether any minute is open.
    writes: bool,
}

fn implicit(kind: ObjectKind) -> bool {
    matches!(kind, ObjectKind::Publisher | ObjectKind::Subscriber)
}

impl Domain {
    /// The numbers that may be of a kind, each with the parent number that it then has.
    fn of_kind(&self, kind: ObjectKind) -> impl Iterator<Item = (u16, u16)> + '_ {
        let records =
            self.objects.iter().flat_map(|(number, records)| records.iter().map(move |record| (*number, *record)));
        records.filter(move |(_, record)| record.0 == kind.as_u8()).map(|(number, (_, parent))| (number, parent))
    }

    /// A number that a Topic names as its parent and that is no Participant's.
    fn lacking(&self) -> Option<u16> {
        let is_none = |number| self.of_kind(ObjectKind::Participant).all(|(participant, _)| participant != number);
        self.of_kind(ObjectKind::Topic).map(|(_, parent)| parent).find(|parent| is_none(*parent))
    }

    fn may_be_implicit(&self, number: u16) -> bool {
        self.objects.get(&number).is_some_and(|records| records.iter().any(|(kind, _)| matches!(kind, 3 | 4)))
    }

    /// Whether another object may depend on this one: on a Participant a Topic that names it, on a Topic a writer or reader.
    fn may_have_dependant(&self, number: u16) -> bool {
        let may_be = |kind: ObjectKind| {
            self.objects.get(&number).is_some_and(|records| records.iter().any(|record| record.0 == kind.as_u8()))
        };
        let named_by = |kind| self.of_kind(kind).any(|(other, parent)| other != number && parent == number);
        may_be(ObjectKind::Participant) && named_by(ObjectKind::Topic)
            || may_be(ObjectKind::Topic) && (named_by(ObjectKind::DataWriter) || named_by(ObjectKind::DataReader))
    }

    /// Whether a writer or reader with this parent finds what the original finds: the Topic that it names, and the
    /// Participant that this names, are the session's only ones. Without any Topic or any Participant both find nothing.
    fn names_the_only_ones(&self, parent: u16) -> bool {
        self.of_kind(ObjectKind::Topic).all(|(topic, its_parent)| {
            self.of_kind(ObjectKind::Participant).all(|(participant, _)| topic == parent && participant == its_parent)
        })
    }

    /// Whether the submessage stays inside, whatever the bridge answered before it; and what it may leave behind.
    fn takes(&mut self, submessage: &Submessage, stream: u8) -> bool {
        match submessage {
            Submessage::Create(p) => {
                let free = !self.may_have_dependant(p.object_id);
                let finds = match p.kind {
                    // Names that are cut short or ill-formed the port refuses (document 02, W7).
                    ObjectKind::Topic => !self.may_be_implicit(p.parent_id) && texts::whole_names(&p.string_data),
                    ObjectKind::DataWriter | ObjectKind::DataReader => self.names_the_only_ones(p.parent_id),
                    _ => true,
                };
                let records = self.objects.entry(p.object_id).or_default();
                if implicit(p.kind) {
                    records.clear();
                }
                records.insert((p.kind.as_u8(), p.parent_id));
                free && finds && self.objects.len() <= 32
            }
            Submessage::Delete(p) => {
                let inside = !self.may_be_implicit(p.object_id) && !self.may_have_dependant(p.object_id);
                self.objects.remove(&p.object_id);
                inside
            }
            Submessage::WriteData(p) => self.writes && !self.may_be_implicit(p.writer_id),
            // On another stream the port numbers its DATA and holds it (document 02, W5).
            Submessage::ReadData(p) => stream == 0 && !self.may_be_implicit(p.reader_id),
            Submessage::Heartbeat(_) | Submessage::Acknack(_) => {
                self.streams.insert(stream);
                self.streams.len() <= 8
            }
            _ => true,
        }
    }
}

impl Making {
    fn new(mut chance: Chance) -> Self {
        let drawn = Drawn { chance: Chance::new(chance.word()), answers: Vec::new() };
        let bridge = Arc::new(Bridge(Mutex::new(drawn)));
        let agent = agent(1, 1, bridge.clone()).expect("an agent for one client");
        let time = chance.pick(&[0, 3, 100_000, 1 << 45]);
        let (parents, windows) = (BTreeMap::new(), all_week());
        Self { chance, bridge, agent, parents, windows, timeout: 1, time, last_opened: 0, lines: Vec::new() }
    }

    fn domain(&self, session: u8) -> Domain {
        let held = self.agent.sessions().get(session);
        let objects = held.iter().flat_map(|s| s.objects.values()).map(|object| {
            let parent = self.parents[&(session, object.object_id)];
            (object.object_id, BTreeSet::from([(object.kind.as_u8(), parent)]))
        });
        Domain {
            objects: objects.collect(),
            streams: held.map_or(BTreeSet::from([0]), |s| s.stream_states.keys().copied().collect()),
            writes: !self.windows.is_empty(),
        }
    }

    /// What the session of a datagram may hold behind it, if it stays inside.
    fn behind(&self, datagram: &[u8]) -> Option<Domain> {
        if !datagrams::without_fragment(datagram) {
            return None;
        }
        let mut domain = self.domain(datagram.first().copied().unwrap_or(0));
        let Ok(message) = parse_message(datagram) else { return Some(domain) };
        let stream = message.header.stream_id;
        message.submessages.iter().all(|submessage| domain.takes(submessage, stream)).then_some(domain)
    }

    fn setup(&mut self, max: usize, timeout: u64) {
        self.agent = agent(max, timeout, self.bridge.clone()).expect("limits that the original takes");
        self.timeout = timeout;
        self.last_opened = 0;
        if self.chance.one_in(2) {
            self.windows = make_hours::windows(&mut self.chance);
        }
        let words = make_hours::windows_words(&mut self.chance, &self.windows);
        self.lines.push(format!("setup {max} {timeout}{words}"));
    }

    fn run(&mut self, script: u64) {
        let max = self.chance.pick(&[1, 2, 3, 5, 8, 60, 255]);
        let timeout = self.chance.pick(&[1, 10, 1000, 1000, 100_000, 1 << 62]);
        self.setup(max, timeout);
        match script % 4 {
            0 => self.round_the_ids(max),
            1 => self.fill_a_session(),
            2 => self.change_a_parent(),
            _ => self.name_the_edges(),
        }
        for _ in 0..66 {
            self.event();
        }
        self.lines.push("dump".into());
    }

    fn event(&mut self) {
        self.pass_time();
        match self.chance.below(28) {
            0 => self.sweep(),
            1 => {
                let id = self.session();
                self.remove(id);
            }
            2 => self.lines.push("dump".into()),
            3 => {
                let whole = self.datagram();
                let damaged = datagrams::damaged(&mut self.chance, &whole);
                self.send(&damaged);
            }
            4 => {
                let whole = datagrams::whole(&mut self.chance);
                self.send(&whole);
            }
            5 | 6 => {
                let id = self.session();
                self.list(id);
            }
            7 | 8 => {
                let id = self.session();
                self.take_down(id);
            }
            9 | 10 => self.ask_for_minute(),
            11 => self.send_in_no_minute(),
            12 if self.chance.one_in(3) => self.set_up_wrongly(),
            _ => {
                let whole = self.datagram();
                self.send(&whole);
            }
        }
    }

    fn pass_time(&mut self) {
        let short = self.timeout.min(5000);
        self.time = match self.chance.below(12) {
            0 => self.time.saturating_sub(self.chance.below(short + 2)),
            1 => self.time + self.chance.below(short + 2),
            2 => self.time + short,
            3 => self.time + short + 1,
            _ => self.time + self.chance.below(3),
        };
    }

    fn sweep(&mut self) {
        clock::set(self.time);
        let gone = self.agent.evict_expired().len() as u64;
        let room = gone + self.chance.pick(&[0, 0, 1, 256]);
        self.lines.push(format!("sweep {} {room}", self.time));
    }

    fn remove(&mut self, id: u8) {
        remove(&mut self.agent, self.timeout, id);
        self.lines.push(format!("remove {id}"));
    }

    fn list(&mut self, id: u8) {
        self.lines.push(format!("list {id}"));
    }

    fn ask_for_minute(&mut self) {
        let (day, minute) = match self.chance.below(8) {
            0 => make_hours::no_minute(&mut self.chance),
            _ => make_hours::any_minute(&mut self.chance, &self.windows),
        };
        self.lines.push(format!("open {day} {minute}"));
    }

    /// A datagram, be it one that reads or not, that is refused as 20: the original never sees it.
    fn send_in_no_minute(&mut self) {
        let whole = self.datagram();
        let bytes = if self.chance.one_in(3) { datagrams::damaged(&mut self.chance, &whole) } else { whole };
        let minute = make_hours::no_minute(&mut self.chance);
        self.hand_in(&bytes, 0, minute);
    }

    /// A set-up that is refused as 19, and leaves the agent that is there.
    fn set_up_wrongly(&mut self) {
        let wrong = make_hours::wrong_windows(&mut self.chance);
        let words = make_hours::windows_words(&mut self.chance, &wrong);
        self.lines.push(format!("setup {} {}{words}", self.chance.pick(&[1, 255]), self.timeout));
    }

    /// Writes a datagram down.
    fn hand_in(&mut self, datagram: &[u8], room: u64, minute: (u8, u16)) {
        let words = make_hours::minute_words(&mut self.chance, minute);
        self.lines.push(format!("datagram {} {room} {}{words}", self.time, hex(datagram)));
    }

    // "The Rust is compared where the minute is open": there come the writes, and all else comes in any.
    fn minute_for(&mut self, datagram: &[u8]) -> (u8, u16) {
        if make_hours::writes(datagram) {
            return make_hours::open_minute(&mut self.chance, &self.windows);
        }
        make_hours::any_minute(&mut self.chance, &self.windows)
    }

    /// DELETE of a session's objects along its listing, a few in a datagram: of all, or of so few that some are left.
    /// Publishers and Subscribers stay, since a DELETE of one isn't compared.
    fn take_down(&mut self, session: u8) {
        let objects = listing(self.agent.sessions(), session);
        let mut numbers: Vec<u16> = objects.iter().filter(|o| !implicit(o.kind)).map(|o| o.object_id).collect();
        if self.chance.one_in(2) {
            numbers.truncate(self.chance.below(numbers.len() as u64 + 1) as usize);
        }
        while !numbers.is_empty() {
            let few = self.chance.pick(&[1, 1, 2, 3, 8]).min(numbers.len());
            let mut datagram = datagrams::header(session, self.chance.pick(&[0, 1]), 0);
            numbers.drain(..few).for_each(|number| datagram.extend(datagrams::delete(number)));
            self.send(&datagram);
        }
        self.list(session);
    }

    /// Sends a datagram if it lies inside the domain, and writes the answers that it needed behind it, with listings between.
    fn send(&mut self, datagram: &[u8]) {
        if self.behind(datagram).is_none() {
            return;
        }
        clock::set(self.time);
        let before = self.live();
        let replies = self.agent.process_incoming(&address(self.lines.len()), datagram);
        let replies: Vec<Vec<u8>> = replies.into_iter().map(|(_, reply)| reply).collect();
        self.note_opened();
        self.note_parents(datagram, &before, &replies);
        let answers = std::mem::take(&mut self.bridge.0.lock().unwrap().answers);
        let need: usize = replies.iter().map(Vec::len).sum();
        let room = need as u64 + self.chance.pick(&[0, 0, 1, 12, 70_000]);
        let minute = self.minute_for(datagram);
        self.hand_in(datagram, room, minute);
        for answer in answers {
            if self.chance.one_in(16) {
                self.ask_for_minute();
            }
            if self.chance.one_in(8) {
                let id = if self.chance.one_in(4) { self.session() } else { datagram[0] };
                self.list(id);
            }
            self.lines.push(match answer {
                Answer::Created(handle) => format!("created {room} {handle}"),
                Answer::Done => format!("done {room}"),
                Answer::Data(sample) => format!("data {room} {}", hex(&sample)),
                Answer::NoData => format!("none {room}"),
                Answer::Failed => format!("failed {room}"),
            });
        }
    }

    fn live(&self) -> Vec<u8> {
        let mut live: Vec<u8> = self.agent.sessions().sessions.keys().copied().collect();
        live.sort();
        live
    }

    fn note_opened(&mut self) {
        if let Some(last) = self.live().last() {
            self.last_opened = *last;
        }
    }

    // Keeps the parent numbers of what a datagram created, by the replies, which come in the order of the submessages:
    // one for each CREATE_CLIENT and, once the session is live, one for each other submessage that is answered at all.
    fn note_parents(&mut self, datagram: &[u8], before: &[u8], replies: &[Vec<u8>]) {
        let Ok(message) = parse_message(datagram) else { return };
        let session = message.header.session_id;
        if self.agent.sessions().get(session).is_none() {
            return;
        }
        let mut live = before.contains(&session);
        let mut replies = replies.iter().map(|reply| parse_message(reply).expect("a reply reads"));
        for submessage in &message.submessages {
            let answered = match submessage {
                Submessage::CreateClient(_) => true,
                Submessage::Acknack(_) | Submessage::Data(_) | Submessage::Status(_) => false,
                _ => live,
            };
            let Some(reply) = answered.then(|| replies.next()).flatten() else { continue };
            match (submessage, &reply.submessages[..]) {
                (Submessage::CreateClient(_), _) => live |= reply.header.session_id == session,
                (Submessage::Create(p), [Submessage::Status(status)]) if status.status == StatusCode::Ok => {
                    self.parents.insert((session, p.object_id), p.parent_id);
                }
                _ => {}
            }
        }
    }

    fn session(&mut self) -> u8 {
        let live = self.live();
        match self.chance.below(12) {
            0 => self.chance.byte(),
            1 => self.last_opened.wrapping_add(1).max(1),
            _ if live.is_empty() => self.chance.within(0, 3) as u8,
            _ => self.chance.pick(&live[..live.len().min(4)]),
        }
    }

    fn datagram(&mut self) -> Vec<u8> {
        let session = self.session();
        // Half of them on stream 0, since READ_DATA comes there alone.
        let stream = self.chance.pick(&[0, 0, 0, 0, 0, 0, 0, 0, 0, 0, 1, 1, 2, 3, 127, 128, 129, 255, 4, 5]);
        let mut datagram = datagrams::header(session, stream, self.chance.word() as u16);
        let unknown = self.agent.sessions().get(session).is_none();
        let mut wanted = self.chance.pick(&[1, 1, 1, 2, 3, 4, 6]);
        let mut domain = self.domain(session);
        if unknown && !self.chance.one_in(4) {
            datagram.extend(self.submessage(&domain, 0x00));
            wanted -= 1;
        }
        let mut tries = 0;
        while wanted > 0 && tries < 30 {
            tries += 1;
            let id = self.chance.pick(&[
                0x01, 0x01, 0x01, 0x01, 0x01, 0x07, 0x07, 0x08, 0x08, 0x08, 0x02, 0x0D, 0x0E, 0x00, 0x05, 0x09,
            ]);
            let longer = [&datagram[..], &self.submessage(&domain, id)].concat();
            if let Some(behind) = self.behind(&longer) {
                (datagram, domain) = (longer, behind);
                wanted -= 1;
            }
        }
        datagram
    }

    // An object number that the session may hold, or one of a small pool, or any.
    fn object(&mut self, domain: &Domain) -> u16 {
        let held: Vec<u16> = domain.objects.keys().copied().collect();
        match self.chance.below(8) {
            0 => self.chance.word() as u16,
            1 | 2 => self.chance.below(40) as u16,
            _ if held.is_empty() => self.chance.below(6) as u16,
            _ => self.chance.pick(&held),
        }
    }

    fn submessage(&mut self, domain: &Domain, id: u8) -> Vec<u8> {
        let object = self.object(domain).to_le_bytes().to_vec();
        let payload = match id {
            0x00 => self.chance.bytes(5),
            0x01 => self.create(domain),
            0x05 => [&object[..], &[self.chance.below(5) as u8]].concat(),
            0x07 | 0x09 => {
                let length = self.chance.pick(&[0, 1, 4, 30]);
                [object, self.chance.bytes(length)].concat()
            }
            0x08 => [object, self.chance.bytes(2)].concat(),
            0x0D => {
                let (first, last) = (self.chance.sequence(), self.chance.sequence());
                [first.to_le_bytes(), last.to_le_bytes()].concat()
            }
            0x0E => [self.chance.sequence().to_le_bytes(), (self.chance.word() as u16).to_le_bytes()].concat(),
            _ => object,
        };
        let behind =
            if self.chance.one_in(8) && !matches!(id, 0x01 | 0x07 | 0x09) { self.chance.within(1, 4) } else { 0 };
        let payload = [payload, self.chance.bytes(behind)].concat();
        datagrams::submessage(id, self.chance.pick(&[0, 0, 1, 255]), &payload)
    }

    // Mostly what the session lacks for writers and readers: a Participant, then a Topic that names it. A Topic may name
    // another kind or nothing; a Participant made there is one that it depends on from then on.
    fn create(&mut self, domain: &Domain) -> Vec<u8> {
        let participant = domain.of_kind(ObjectKind::Participant).next();
        let topic = domain.of_kind(ObjectKind::Topic).next();
        let lacking = domain.lacking();
        let kind = match (participant, topic) {
            _ if self.chance.one_in(4) => self.chance.within(1, 6) as u8,
            _ if lacking.is_some() && self.chance.one_in(2) => 1,
            (None, _) => 1,
            (Some((participant, _)), Some((_, parent))) if parent == participant => {
                self.chance.pick(&[5, 5, 6, 6, 3, 4])
            }
            _ => 2,
        };
        let number = match (kind, lacking, topic) {
            _ if self.chance.one_in(3) => self.object(domain),
            (1, Some(lacking), _) => lacking,
            (2, _, Some((topic, _))) if !domain.may_have_dependant(topic) => topic,
            _ => self.chance.below(40) as u16,
        };
        let named = match kind {
            2 => participant,
            5 | 6 => topic,
            _ => None,
        };
        let parent = match named {
            Some((named, _)) if !self.chance.one_in(5) => named,
            _ => self.object(domain),
        };
        let mut payload = [number.to_le_bytes(), [kind, parent as u8]].concat();
        payload.push((parent >> 8) as u8);
        if kind == 2 {
            payload.extend(self.names());
        } else if self.chance.one_in(6) {
            payload.extend(self.no_names());
        }
        payload
    }

    // Name and type of a Topic, sometimes with any bytes behind them.
    fn names(&mut self) -> Vec<u8> {
        let mut strings = texts::string(texts::name(&mut self.chance).as_bytes());
        strings.extend(texts::string(texts::name(&mut self.chance).as_bytes()));
        if self.chance.one_in(8) {
            let behind = self.chance.pick(&[1, 3, 30]);
            strings.extend(self.chance.bytes(behind));
        }
        strings
    }

    // What stands behind the parent number of another kind is no string and is not looked at.
    fn no_names(&mut self) -> Vec<u8> {
        let names = self.names();
        if self.chance.one_in(4) {
            return texts::string(self.chance.pick(&texts::ILL_FORMED));
        }
        datagrams::damaged(&mut self.chance, &names)
    }

    // Sessions opened and removed until the ids have gone past 255, at last with a full table.
    fn round_the_ids(&mut self, max: usize) {
        let many = |making: &mut Making, count: usize| {
            let mut datagram = datagrams::header(making.chance.byte(), 0, 0);
            let domain = making.domain(0);
            for _ in 0..count {
                datagram.extend(making.submessage(&domain, 0x00));
            }
            making.send(&datagram);
        };
        let mut opened = 0;
        while opened < 256 {
            self.pass_time();
            let count = max.min(90) + 1;
            many(self, count);
            opened += count;
            let live = self.live();
            let (keep, drop) = live.split_at(live.len().min(2) - 1);
            let (keep, drop) = if self.chance.one_in(2) { (keep, drop) } else { (&live[..0], &live[..]) };
            for id in drop.iter().filter(|id| !keep.contains(id)) {
                self.remove(*id);
            }
        }
        many(self, max.min(100) + 1);
        self.lines.push("dump".into());
    }

    // 32 objects and 8 streams in one session, and then again numbers and streams that it has.
    fn fill_a_session(&mut self) {
        let domain = self.domain(1);
        let opening = [datagrams::header(1, 0, 0), self.submessage(&domain, 0x00), self.filling(0), self.filling(1)];
        self.send(&opening.concat());
        for _ in 0..20 {
            (0..32).for_each(|number| self.fill(number));
        }
        for number in [31, 2, 16] {
            let again = self.filling(number);
            self.send(&[datagrams::header(1, 0, 7), again].concat());
        }
        self.list(1);
        for stream in [1, 2, 3, 4, 5, 6, 7, 0, 7, 128] {
            let domain = self.domain(1);
            let both =
                [datagrams::header(1, stream, 0), self.submessage(&domain, 0x0D), self.submessage(&domain, 0x0E)];
            self.send(&both.concat());
        }
        self.lines.push("dump".into());
        if self.chance.one_in(2) {
            self.take_down(1);
        }
    }

    // A Topic names a Topic, which goes and comes back as a Participant; then a writer finds both. Calls may fail on the way.
    fn change_a_parent(&mut self) {
        let [old, changed, topic, writer] = [0, 1, 2, 3].map(|number| 4 * self.chance.below(9) as u16 + number);
        let domain = self.domain(1);
        let steps = [
            self.submessage(&domain, 0x00),
            datagrams::create(old, 1, 0, &[]),
            datagrams::create(changed, 2, old, &self.names()),
            datagrams::create(topic, 2, changed, &self.names()),
            datagrams::delete(changed),
            datagrams::delete(old),
            datagrams::create(changed, 1, 0, &[]),
            datagrams::create(writer, self.chance.pick(&[5, 6]), topic, &[]),
        ];
        for step in steps {
            self.send(&[datagrams::header(1, 0, 0), step].concat());
        }
        self.list(1);
        self.take_down(1);
    }

    // A Topic for each character at an edge: alone and among others, as name and as type.
    fn name_the_edges(&mut self) {
        let domain = self.domain(1);
        let opening =
            [datagrams::header(1, 0, 0), self.submessage(&domain, 0x00), datagrams::create(0, 1, 0, &[])].concat();
        self.send(&opening);
        for edge in texts::EDGES {
            let mut strings = [edge.to_string(), format!("a{edge}{edge}z")].map(|text| texts::string(text.as_bytes()));
            strings.rotate_left(usize::from(self.chance.one_in(2)));
            self.send(&[datagrams::header(1, 0, 0), datagrams::create(1, 2, 0, &strings.concat())].concat());
        }
    }

    fn holds(&self, number: u16) -> bool {
        self.agent.sessions().get(1).is_some_and(|session| session.get_object(number).is_some())
    }

    // Object 0 is a Participant, 1 its Topic, the others are the Topic's writers and readers.
    fn filling(&mut self, number: u16) -> Vec<u8> {
        let (kind, parent) = match number {
            0 => (1, 0),
            1 => (2, 0),
            _ => (self.chance.pick(&[5, 6]), 1),
        };
        datagrams::create(number, kind, parent, if number == 1 { &[1, 0, b'a', 1, 0, b'b'] } else { &[] })
    }

    fn fill(&mut self, number: u16) {
        let in_turn = number < 2 || self.holds(0) && self.holds(1);
        if in_turn && !self.holds(number) {
            let create = self.filling(number);
            self.send(&[datagrams::header(1, 3, number), create].concat());
        }
    }
}
