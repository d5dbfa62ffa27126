//! Everything that a host lends, each in memory of its own between guard pages.

use crate::chance::Chance;
use crate::hours;
use crate::listing::{listing, Kept};
use crate::sys::{Guarded, Side};
use std::ops::Range;
use xrce_agent::lent::{
    self, AgentRecord, Lent, ObjectRecord, SessionRow, StreamRow, Told, HELD, HOURS, LENGTHS, OBJECTS, PARTS, REBUILT,
    SESSIONS, STREAMS,
};
use xrce_agent::{Given, Window};

/// For so many clients there are stores of held messages and of fragments; a set-up for more is refused.
const CLIENTS: usize = 6;
const OUT: usize = 8192;
const NUMBERS: usize = 64;
/// The most windows that a set-up is given.
const WINDOWS: usize = 64;
const BYTES: usize = 70_000;
/// The call for a Topic (enum xrce_call).
const CREATE_TOPIC: u64 = 2;
const FILL: u8 = 0xA5;
const FILL_NUMBER: u16 = 0xA5A5;

pub struct Stores {
    record: Guarded<AgentRecord>,
    sessions: Guarded<SessionRow>,
    streams: Guarded<StreamRow>,
    objects: Guarded<ObjectRecord>,
    held: Guarded<u8>,
    parts: Guarded<u8>,
    lengths: Guarded<u32>,
    rebuilt: Guarded<u8>,
    hours: Guarded<u8>,
    windows: Guarded<Window>,
    out: Guarded<u8>,
    numbers: Guarded<u16>,
    datagram: Guarded<u8>,
    sample: Guarded<u8>,
    side: Side,
    // Of the last datagram or answer: the session that it named, and where the stores of held messages, of fragments and of their
    // lengths began that were lent with it.
    named: u8,
    lent_from: [usize; 3],
    // The datagram of the open call, as a host keeps it.
    kept: Vec<u8>,
    /// Objects in listings that were checked whole.
    pub listed: u64,
    /// Calls that rebuilt submessages handed out.
    pub inside: u64,
    /// Calls for a Topic, whose names were read.
    pub topics: u64,
    /// Writes by themselves that went by their minute, and questions for the first open minute that were right.
    pub writes: u64,
    pub questions: u64,
}

/// A copy of record, tables and stores.
pub struct Copied {
    record: AgentRecord,
    sessions: Vec<SessionRow>,
    streams: Vec<StreamRow>,
    objects: Vec<ObjectRecord>,
    held: Vec<u8>,
    parts: Vec<u8>,
    lengths: Vec<u32>,
    rebuilt: Vec<u8>,
    hours: Vec<u8>,
}

// Mostly the whole need, at times less.
fn length(chance: &mut Chance, need: usize) -> usize {
    match chance.below(200) {
        0 => chance.below(need),
        1 => need - 1,
        2 => chance.below(3).min(need),
        _ => need,
    }
}

// Mostly the whole store, `each` for a client; at times what some number of clients needs, or one less.
fn store_length(chance: &mut Chance, each: usize) -> usize {
    let some = each * chance.below(CLIENTS + 1);
    match chance.below(200) {
        0 => some,
        1 => some.saturating_sub(1),
        _ => each * CLIENTS,
    }
}

// Whether nothing changed but in one part.
fn kept_outside<T: PartialEq>(now: &[T], before: &[T], own: Range<usize>) -> bool {
    now[..own.start] == before[..own.start] && now[own.end..] == before[own.end..]
}

fn put<'a>(store: &'a mut Guarded<u8>, side: Side, bytes: &[u8]) -> &'a [u8] {
    let slice = store.slice(side, bytes.len());
    slice.copy_from_slice(bytes);
    slice
}

/// Whether a call was answered and not refused.
pub fn went(answer: u64) -> bool {
    answer.is_multiple_of(256)
}

// A refused call leaves the output, an answered one what stands behind its result.
fn output_kept<T: PartialEq>(out: &[T], fill: T, answer: u64, wrote: u64) -> Result<(), String> {
    let from = if went(answer) { wrote } else { 0 };
    let rest = usize::try_from(from).ok().and_then(|from| out.get(from..));
    match rest {
        None => Err(format!("{wrote} written in an output of {}", out.len())),
        Some(rest) if rest.iter().any(|one| *one != fill) => Err(format!("the output changed behind {from}")),
        Some(_) => Ok(()),
    }
}

impl Stores {
    pub fn new() -> Self {
        Stores {
            record: Guarded::new(1),
            sessions: Guarded::new(SESSIONS),
            streams: Guarded::new(STREAMS),
            objects: Guarded::new(OBJECTS),
            held: Guarded::new(HELD * CLIENTS),
            parts: Guarded::new(PARTS * CLIENTS),
            lengths: Guarded::new(LENGTHS * CLIENTS),
            rebuilt: Guarded::new(REBUILT),
            hours: Guarded::new(HOURS),
            windows: Guarded::new(WINDOWS),
            out: Guarded::new(OUT),
            numbers: Guarded::new(NUMBERS),
            datagram: Guarded::new(BYTES),
            sample: Guarded::new(BYTES),
            side: Side::End,
            named: 0,
            lent_from: [0; 3],
            kept: Vec::new(),
            listed: 0,
            inside: 0,
            topics: 0,
            writes: 0,
            questions: 0,
        }
    }

    /// From here on slices lie at that guard page.
    pub fn turn(&mut self, chance: &mut Chance) {
        self.side = chance.of(&[Side::Start, Side::End]);
    }

    fn record(&mut self) -> &mut AgentRecord {
        &mut self.record.slice(self.side, 1)[0]
    }

    pub fn copy(&mut self) -> Copied {
        let side = self.side;
        Copied {
            record: self.record().clone(),
            sessions: self.sessions.slice(side, SESSIONS).to_vec(),
            streams: self.streams.slice(side, STREAMS).to_vec(),
            objects: self.objects.slice(side, OBJECTS).to_vec(),
            held: self.held.slice(side, HELD * CLIENTS).to_vec(),
            parts: self.parts.slice(side, PARTS * CLIENTS).to_vec(),
            lengths: self.lengths.slice(side, LENGTHS * CLIENTS).to_vec(),
            rebuilt: self.rebuilt.slice(side, REBUILT).to_vec(),
            hours: self.hours.slice(side, HOURS).to_vec(),
        }
    }

    /// Whether all is as it was when it was copied.
    pub fn equals(&mut self, copied: &Copied) -> bool {
        let side = self.side;
        *self.record() == copied.record
            && *self.sessions.slice(side, SESSIONS) == copied.sessions
            && *self.streams.slice(side, STREAMS) == copied.streams
            && *self.objects.slice(side, OBJECTS) == copied.objects
            && *self.held.slice(side, HELD * CLIENTS) == copied.held
            && *self.parts.slice(side, PARTS * CLIENTS) == copied.parts
            && *self.lengths.slice(side, LENGTHS * CLIENTS) == copied.lengths
            && *self.rebuilt.slice(side, REBUILT) == copied.rebuilt
            && *self.hours.slice(side, HOURS) == copied.hours
    }

    /// Whether the last datagram or answer left the messages and fragments of every other session, and the week's minutes: only the
    /// parts of the named session's slot may have changed since the copy.
    pub fn others_kept(&mut self, copied: &Copied) -> bool {
        let side = self.side;
        let [live, .., slot, _, _] = self.sessions.slice(side, SESSIONS)[usize::from(self.named)];
        let own = |from: usize, each: usize| match live {
            0 => from..from,
            _ => from + each * slot as usize..from + each * (slot as usize + 1),
        };
        let [held, parts, lengths] = self.lent_from;
        kept_outside(self.held.slice(side, HELD * CLIENTS), &copied.held, own(held, HELD))
            && kept_outside(self.parts.slice(side, PARTS * CLIENTS), &copied.parts, own(parts, PARTS))
            && kept_outside(self.lengths.slice(side, LENGTHS * CLIENTS), &copied.lengths, own(lengths, LENGTHS))
            && *self.hours.slice(side, HOURS) == copied.hours
    }

    /// A set-up with windows by chance, of which it must take those that fit and keep what they open.
    pub fn setup(&mut self, chance: &mut Chance) -> Result<u64, String> {
        let side = self.side;
        let records = length(chance, 1);
        let windows = hours::windows(chance);
        self.windows.slice(side, windows.len()).copy_from_slice(&windows);
        let tables = Lent {
            sessions: self.sessions.slice(side, length(chance, SESSIONS)),
            streams: self.streams.slice(side, length(chance, STREAMS)),
            objects: self.objects.slice(side, length(chance, OBJECTS)),
            held: self.held.slice(side, store_length(chance, HELD)),
            parts: self.parts.slice(side, store_length(chance, PARTS)),
            lengths: self.lengths.slice(side, store_length(chance, LENGTHS)),
            rebuilt: self.rebuilt.slice(side, length(chance, REBUILT)),
            hours: self.hours.slice(side, length(chance, HOURS)),
        };
        let max = if chance.once_in(8) { chance.extreme() } else { 1 + chance.below(CLIENTS) as u64 };
        let (record, lent) = (self.record.slice(side, records), self.windows.slice(side, windows.len()));
        let answer = lent::setup(record, tables, lent, max, chance.of(&[0, 10, 1000, u64::MAX]));
        hours::set_up_right(&windows, answer, self.hours.slice(side, HOURS))?;
        Ok(answer)
    }

    pub fn process(&mut self, chance: &mut Chance, datagram: &[u8]) -> Result<u64, String> {
        let side = self.side;
        let AgentRecord { open, is_open, .. } = *self.record();
        let input = input(chance, open);
        let again = open != 0 && !chance.once_in(16);
        let bytes = if again { self.kept.clone() } else { datagram.to_vec() };
        let sample = sample(chance, input);
        let (day, minute) = hours::minute(chance);
        let given = Given { time_ms: chance.below(3000) as u64, day, minute };
        let told = Told {
            input,
            given,
            handle: chance.extreme() as u32,
            datagram: put(&mut self.datagram, side, &bytes),
            sample: put(&mut self.sample, side, &sample),
        };
        let out = self.out.slice(side, room(chance));
        out.fill(FILL);
        let records = length(chance, 1);
        let [held, parts, lengths] = [HELD, PARTS, LENGTHS].map(|each| store_length(chance, each));
        let tables = Lent {
            sessions: self.sessions.slice(side, length(chance, SESSIONS)),
            streams: self.streams.slice(side, length(chance, STREAMS)),
            objects: self.objects.slice(side, length(chance, OBJECTS)),
            held: self.held.slice(side, held),
            parts: self.parts.slice(side, parts),
            lengths: self.lengths.slice(side, lengths),
            rebuilt: self.rebuilt.slice(side, length(chance, REBUILT)),
            hours: self.hours.slice(side, length(chance, HOURS)),
        };
        let records = self.record.slice(side, records);
        self.named = match records.first() {
            Some(record) if open != 0 => record.session as u8,
            _ => bytes.first().copied().unwrap_or(0),
        };
        self.lent_from = match side {
            Side::End => [HELD * CLIENTS - held, PARTS * CLIENTS - parts, LENGTHS * CLIENTS - lengths],
            Side::Start => [0; 3],
        };
        let answer = lent::process(records, tables, out, told);
        output_kept(out, FILL, answer, records.first().map_or(0, |record| record.wrote))?;
        let own = hours::is_open(self.hours.slice(side, HOURS), day, minute);
        let is_open = if input == 0 { own } else { Some(is_open == 1) };
        let wrote = records.first().filter(|_| went(answer)).map_or(0, |record| record.wrote as usize);
        let told = hours::Told { input, given, datagram: &bytes, is_open, answer, replied: &out[..wrote] };
        told.refused_right()?;
        if went(answer) {
            let record = records.first().ok_or("a call without a record was answered")?;
            self.writes += u64::from(told.answered_right(record)?);
            told_whole(record, &bytes, self.rebuilt.slice(side, REBUILT))?;
            self.inside += u64::from(record.left_end != 0);
            self.topics += u64::from(record.call == CREATE_TOPIC);
            self.kept = bytes;
        }
        Ok(answer)
    }

    pub fn remove(&mut self, chance: &mut Chance) -> u64 {
        let side = self.side;
        let records = length(chance, 1);
        let sessions = self.sessions.slice(side, length(chance, SESSIONS));
        lent::remove(self.record.slice(side, records), sessions, chance.extreme() as u8)
    }

    pub fn sweep(&mut self, chance: &mut Chance) -> Result<u64, String> {
        let side = self.side;
        let records = length(chance, 1);
        let sessions = self.sessions.slice(side, length(chance, SESSIONS));
        let room = chance.of(&[0, 1, 2, 8, 255, 256]);
        let out = self.out.slice(side, room);
        out.fill(FILL);
        let answer = lent::sweep(self.record.slice(side, records), sessions, out, chance.extreme());
        output_kept(out, FILL, answer, answer / 65536)?;
        Ok(answer)
    }

    /// The listing of a session, which must be right wherever the session's row and records are such as the agent leaves.
    pub fn list(&mut self, chance: &mut Chance) -> Result<u64, String> {
        let side = self.side;
        let sessions = self.sessions.slice(side, length(chance, SESSIONS));
        let objects = self.objects.slice(side, length(chance, OBJECTS));
        let out = self.numbers.slice(side, chance.of(&[0, 1, 2, 4, 8, 31, 32, 32, 33, NUMBERS]));
        out.fill(FILL_NUMBER);
        let id = if chance.once_in(4) { chance.extreme() as u8 } else { 1 + chance.below(3) as u8 };
        let answer = lent::list(sessions, objects, out, id);
        output_kept(out, FILL_NUMBER, answer, answer / 65536)?;
        let wanted = listing(sessions, objects, out.len(), id);
        let right = match &wanted {
            Kept::Listed(numbers) => went(answer) && out[..answer as usize / 65536] == numbers[..],
            Kept::Refused(number) => answer == *number,
            Kept::Altered => matches!(answer % 256, 0 | 13 | 16),
        };
        if !right {
            return Err(format!("the listing of session {id} answered {answer} instead of {wanted:?}: {out:?}"));
        }
        if let Kept::Listed(numbers) = wanted {
            self.listed += numbers.len() as u64;
        }
        Ok(answer)
    }

    /// The question for the first open minute, which must be answered right.
    pub fn first_open(&mut self, chance: &mut Chance) -> Result<u64, String> {
        let (day, minute) = hours::minute(chance);
        let hours = self.hours.slice(self.side, length(chance, HOURS));
        let answer = lent::first_open(hours, day, minute);
        hours::first_right(hours, day, minute, answer)?;
        self.questions += 1;
        Ok(answer)
    }

    /// Sets some numbers of the record, of a table or of a store to others; the record as it was.
    pub fn alter(&mut self, chance: &mut Chance) -> AgentRecord {
        let (side, kept) = (self.side, self.record().clone());
        for _ in 0..=chance.below(4) {
            let row = 1 + chance.below(5);
            match chance.below(11) {
                0 | 1 => *self.record().numbers_mut()[chance.below(AgentRecord::NUMBERS)] = chance.extreme(),
                2 => self.sessions.slice(side, SESSIONS)[row][chance.below(8)] = chance.extreme(),
                3 => {
                    self.streams.slice(side, STREAMS)[8 * row + chance.below(9)][chance.below(35)] =
                        chance.extreme() as u16
                }
                4 => self.objects.slice(side, OBJECTS)[32 * row + chance.below(33)] = object(chance),
                5 => self.held.slice(side, HELD * CLIENTS)[chance.below(HELD * CLIENTS)] = chance.byte(),
                6 => {
                    let length = if chance.once_in(2) { chance.extreme() as u32 } else { 1 + chance.below(514) as u32 };
                    self.lengths.slice(side, LENGTHS * CLIENTS)[chance.below(LENGTHS * CLIENTS)] = length
                }
                7 => self.parts.slice(side, PARTS * CLIENTS)[chance.below(PARTS * CLIENTS)] = chance.byte(),
                8 => self.rebuilt.slice(side, REBUILT)[chance.below(64)] = chance.below(18) as u8,
                9 => self.hours.slice(side, HOURS)[chance.below(HOURS)] = chance.of(&[0, 1, 2, 255]),
                _ => self.sessions.slice(side, SESSIONS)[chance.below(SESSIONS)][chance.below(8)] = chance.extreme(),
            }
        }
        kept
    }

    pub fn restore(&mut self, record: AgentRecord) {
        *self.record() = record;
    }
}

// A record after a call that was answered: numbers of an open call where one is open, and zeroes else. Names and data of a
// call are parts of its datagram, or of the rebuilt bytes; a Topic's names are text (document 02, W7).
fn told_whole(record: &AgentRecord, datagram: &[u8], rebuilt: &[u8]) -> Result<(), String> {
    if record.left_at > record.left_end || record.left_end > REBUILT as u64 {
        return Err(format!("rebuilt bytes wait from {} to {}", record.left_at, record.left_end));
    }
    let shown = if record.left_end == 0 { datagram } else { &rebuilt[..record.left_end as usize] };
    for (start, len) in [(record.start, record.len), (record.type_start, record.type_len)] {
        let part = shown.get(start as usize..).and_then(|rest| rest.get(..len as usize));
        let part = part.ok_or_else(|| format!("a part at {start} of {len} bytes in {}", shown.len()))?;
        if record.call == CREATE_TOPIC && std::str::from_utf8(part).is_err() {
            return Err(format!("a Topic is named '{}'", part.escape_ascii()));
        }
    }
    let AgentRecord { max_clients, timeout_ms, next, wrote, .. } = *record;
    let idle = *record == AgentRecord { max_clients, timeout_ms, next, wrote, ..AgentRecord::default() };
    let calls = matches!((record.open, record.call), (1, 1..=4) | (2, 5) | (3, 6) | (4, 7));
    if idle || calls {
        return Ok(());
    }
    Err(format!("neither a call nor none is open: {record:?}"))
}

fn object(chance: &mut Chance) -> ObjectRecord {
    ObjectRecord {
        number: chance.extreme() as u16,
        kind: chance.extreme() as u8,
        bridged: chance.extreme() as u8,
        handle: chance.extreme() as u32,
        // Mostly a number that the session may hold.
        parent: if chance.once_in(4) { chance.extreme() as u16 } else { chance.below(8) as u16 },
    }
}

// Mostly an input that fits what is open: 1 a CREATE's call, 2 a WRITE_DATA's, 3 a READ_DATA's, 4 a DELETE's.
fn input(chance: &mut Chance, open: u64) -> u8 {
    if chance.once_in(24) {
        return chance.extreme() as u8;
    }
    match open {
        0 => 0,
        1 => chance.of(&[1, 1, 1, 5]),
        3 => chance.of(&[3, 3, 4, 5]),
        _ => chance.of(&[2, 2, 2, 5]),
    }
}

fn sample(chance: &mut Chance, input: u8) -> Vec<u8> {
    let len = match (input, chance.below(300)) {
        (3, 0) => chance.of(&[65_532, 65_533, 65_534, 65_536, 70_000]),
        (3, 1..=6) => chance.of(&[1013, 1014, 1015, 1016]),
        (3, _) => chance.below(64),
        _ => 0,
    };
    vec![0x5A; len]
}

fn room(chance: &mut Chance) -> usize {
    match chance.below(10) {
        0 => chance.below(40),
        1 => OUT,
        _ => 60 + chance.below(200),
    }
}
