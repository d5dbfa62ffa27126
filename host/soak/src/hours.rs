//! Quiet hours (document 02, W8) by another way than the agent's: windows by chance, whether they fit, and what may be answered.

use crate::chance::Chance;
use wire::{ERR_INCOMPATIBLE, ERR_UNKNOWN_REF};
use xrce_agent::lent::{AgentRecord, HOURS};
use xrce_agent::{Given, Window, ALL_WEEK};

/// The call of a write (enum xrce_call).
const WRITE_DATA: u64 = 5;

/// Windows for a set-up: every minute, or mostly ones that fit; at times one of their numbers is another, or two change places.
pub fn windows(chance: &mut Chance) -> Vec<Window> {
    if chance.once_in(4) {
        return ALL_WEEK.to_vec();
    }
    let (mut ends, mut all) = ([0; 7], Vec::new());
    for _ in 0..chance.below(48) {
        let day = chance.below(7);
        let from = ends[day] + chance.of(&[0, 0, 1, 30]);
        let to = from + chance.of(&[1, 60, 180, 300]);
        if to <= 1440 {
            ends[day] = to;
            all.push(Window::new(day as u16, from, to));
        }
    }
    if chance.once_in(8) && !all.is_empty() {
        spoil(chance, &mut all);
    }
    all
}

fn spoil(chance: &mut Chance, all: &mut [Window]) {
    let at = chance.below(all.len());
    match chance.below(4) {
        0 => all[at].day = chance.extreme() as u16,
        1 => all[at].from = chance.of(&[0, 600, 1440, 65_535]),
        2 => all[at].to = chance.of(&[0, 600, 1440, 1441, 65_535]),
        _ => all.swap(at, chance.below(all.len())),
    }
}

/// A weekday and minute: mostly ones that there are, often at an end of the day or of a window.
pub fn minute(chance: &mut Chance) -> (u8, u16) {
    if chance.once_in(40) {
        return (chance.extreme() as u8, chance.of(&[0, 1439, 1440, 65_535]));
    }
    let minute = if chance.once_in(2) { chance.below(1440) as u16 } else { chance.of(&[0, 1, 59, 60, 179, 180, 1439]) };
    (chance.below(7) as u8, minute)
}

/// Where a minute of the week has its byte; none for one that there isn't.
pub fn place(day: u8, minute: u16) -> Option<usize> {
    (day < 7 && minute < 1440).then(|| 1440 * usize::from(day) + usize::from(minute))
}

/// Whether a datagram's minute is open; none where its byte was altered.
pub fn is_open(hours: &[u8], day: u8, minute: u16) -> Option<bool> {
    let byte = hours[place(day, minute)?];
    (byte <= 1).then_some(byte == 1)
}

// The windows of each weekday by themselves: up to 8, none empty, each from where the one before it ends.
fn fit(windows: &[Window]) -> bool {
    let day_fits = |day: u16| {
        let own: Vec<&Window> = windows.iter().filter(|window| window.day == day).collect();
        let ends: Vec<u16> = own.iter().flat_map(|window| [window.from, window.to]).collect();
        own.len() <= 8
            && own.iter().all(|window| window.from != window.to)
            && ends.is_sorted()
            && ends.iter().all(|end| *end <= 1440)
    };
    windows.iter().all(|window| window.day < 7) && (0..7).all(day_fits)
}

/// What a set-up must leave as the week's minutes.
fn kept(windows: &[Window]) -> Vec<u8> {
    let mut hours = vec![0; HOURS];
    for window in windows {
        let start = 1440 * usize::from(window.day);
        hours[start + usize::from(window.from)..start + usize::from(window.to)].fill(1);
    }
    hours
}

/// Whether a set-up with these windows may answer so, and what it left; 16 comes before 19.
pub fn set_up_right(windows: &[Window], answer: u64, hours: &[u8]) -> Result<(), String> {
    match answer % 256 {
        0 if !fit(windows) => Err(format!("a set-up took {windows:?}")),
        0 if hours != kept(windows) => Err(format!("a set-up kept other minutes of {windows:?}")),
        19 if fit(windows) => Err(format!("a set-up refused {windows:?}")),
        _ => Ok(()),
    }
}

/// Whether the question for the first open minute may be answered so. A byte that is neither 0 nor 1 was altered, and says nothing.
pub fn first_right(hours: &[u8], day: u8, minute: u16, answer: u64) -> Result<(), String> {
    let wrong = || Err(format!("the first open minute from weekday {day}, minute {minute} on was answered {answer}"));
    let (true, Some(start)) = (hours.len() >= HOURS, place(day, minute)) else {
        let refusal = if hours.len() < HOURS { 16 } else { 20 };
        return if answer == refusal { Ok(()) } else { wrong() };
    };
    let mut round = (start..HOURS).chain(0..start);
    let right = match (answer % 65_536, (answer / 65_536).checked_sub(1)) {
        (0, None) => round.all(|at| hours[at] != 1),
        (0, Some(first)) if first < HOURS as u64 => {
            let first = first as usize;
            hours[first] != 0 && round.take_while(|at| *at != first).all(|at| hours[at] != 1)
        }
        _ => false,
    };
    if right {
        return Ok(());
    }
    wrong()
}

/// A datagram or an answer, and what came of it.
pub struct Told<'a> {
    pub input: u8,
    pub given: Given,
    pub datagram: &'a [u8],
    /// Whether the minute that counts is open: of an answer that of its call's datagram, and of a datagram its own, unless its byte was altered.
    pub is_open: Option<bool>,
    pub answer: u64,
    pub replied: &'a [u8],
}

impl Told<'_> {
    /// 20 is for a datagram in a minute that there isn't, and comes behind 15 and 16 alone.
    pub fn refused_right(&self) -> Result<(), String> {
        let is_minute = place(self.given.day, self.given.minute).is_some();
        match (self.input, self.answer % 256) {
            (_, 15 | 16) => Ok(()),
            (0, 20) if !is_minute => Ok(()),
            (0, 20) => Err(format!("refused as 20: {:?}", self.given)),
            (0, _) if !is_minute => Err(format!("answered {}: {:?}", self.answer, self.given)),
            (_, 20) => Err("an answer was refused as 20".into()),
            _ => Ok(()),
        }
    }

    /// A write is called for in an open minute alone, that of its datagram; whether this one is a write by itself.
    pub fn answered_right(&self, record: &AgentRecord) -> Result<bool, String> {
        if record.call == WRITE_DATA && record.is_open != 1 {
            return Err(format!("a write in a closed minute: {record:?}"));
        }
        let Some(is_open) = self.is_open else { return Ok(false) };
        if record.call != 0 && record.is_open != u64::from(is_open) {
            return Err(format!("a call keeps another minute: {record:?}"));
        }
        if self.input != 0 || !is_write(self.datagram) {
            return Ok(false);
        }
        let right = match (is_open, record.call, self.replied.last()) {
            (_, 0, None | Some(&ERR_UNKNOWN_REF)) => true,
            (false, 0, Some(&code)) => code == ERR_INCOMPATIBLE,
            (true, WRITE_DATA, None) => true,
            _ => false,
        };
        right.then_some(true).ok_or_else(|| format!("a write, open {is_open}, came to {record:?}, {:?}", self.replied))
    }
}

// A datagram that holds a WRITE_DATA and nothing else.
fn is_write(datagram: &[u8]) -> bool {
    match datagram {
        [_, _, _, _, 0x07, _, low, high, payload @ ..] => {
            payload.len() == usize::from(u16::from_le_bytes([*low, *high]))
        }
        _ => false,
    }
}
