//! The messages: numbered, written, and read in order.

use crate::args::{Options, Role};
use crate::client::{Client, Wrong, LIMIT};
use crate::progress::Progress;
use crate::summary::Summary;
use std::thread::sleep;
use std::time::{Duration, Instant};

/// The objects that it writes to and reads from.
pub const WRITER: u16 = 3;
pub const READER: u16 = 4;
/// A reader that had nothing is asked again after that.
const POLL: Duration = Duration::from_millis(1);
/// So many are shown one by one.
const SHOWN: u64 = 10;

pub struct Messages {
    role: Role,
    count: u64,
    rate: u64,
    size: usize,
    settle: Duration,
    patience: Duration,
}

/// Message `number`: 8 digits, then letters that follow from the number.
pub fn message(number: u64, size: usize) -> Vec<u8> {
    let mut bytes = format!("{number:08}").into_bytes();
    bytes.extend((bytes.len()..size).map(|at| b'a' + ((number + at as u64) % 26) as u8));
    bytes
}

/// The number that a message begins with.
pub fn number_of(message: &[u8]) -> Option<u64> {
    std::str::from_utf8(message.get(..8)?).ok()?.parse().ok()
}

impl Messages {
    pub fn new(options: &Options) -> Self {
        Messages {
            role: options.role,
            count: options.messages,
            rate: options.rate,
            size: options.size,
            settle: Duration::from_millis(options.settle_ms),
            patience: Duration::from_millis(options.patience_ms),
        }
    }

    pub fn exchange(&self, client: &mut Client) -> Result<Summary, Wrong> {
        sleep(self.settle);
        let start = Instant::now();
        let mut progress = Progress::new(self.count);
        let mut summary = Summary::new(self.role, self.size);
        for number in 1..=self.count {
            self.wait_for_turn(start, number);
            let sent = message(number, self.size);
            let began = Instant::now();
            self.one(client, number, &sent, &mut summary)?;
            let took = began.elapsed();
            summary.add(took);
            if self.count <= SHOWN {
                println!("{} {} ({} µs)", summary.did(), shown(&sent), took.as_micros());
            }
            progress.at(number);
        }
        progress.done();
        summary.finish(start.elapsed(), client.resent, client.asked);
        Ok(summary)
    }

    fn one(&self, client: &mut Client, number: u64, sent: &[u8], seen: &mut Summary) -> Result<(), Wrong> {
        if self.role != Role::Read {
            client.write(WRITER, sent)?;
        }
        match self.role {
            Role::Both => self.read_back(client, number, sent, seen),
            Role::Write => Ok(()),
            Role::Read => self.read_next(client, number, sent, seen),
        }
    }

    // Message n leaves at (n - 1) / rate seconds, or as soon as the one before is back.
    fn wait_for_turn(&self, start: Instant, number: u64) {
        if self.rate > 0 {
            let turn = start + Duration::from_secs_f64((number - 1) as f64 / self.rate as f64);
            sleep(turn.saturating_duration_since(Instant::now()));
        }
    }

    // Older messages may come twice where a write was sent again. On stream 0 a sample whose reply got lost is written again.
    fn read_back(&self, client: &mut Client, number: u64, sent: &[u8], seen: &mut Summary) -> Result<(), Wrong> {
        let start = Instant::now();
        while start.elapsed() < LIMIT {
            match client.read(READER)? {
                Some(got) if got == sent => return Ok(()),
                Some(got) if number_of(&got).is_some_and(|older| older <= number) && self.is_ours(&got) => {
                    seen.repeated += 1
                }
                Some(got) => return Err(Wrong::Other(number, got)),
                None => client.write(WRITER, sent)?,
            }
        }
        Err(Wrong::Missing(format!("READ_DATA with message {number}")))
    }

    // The message that another wrote, as soon as it is there. One that its writer sent again may come twice.
    fn read_next(&self, client: &mut Client, number: u64, sent: &[u8], seen: &mut Summary) -> Result<(), Wrong> {
        let start = Instant::now();
        while start.elapsed() < self.patience {
            match client.read(READER)? {
                Some(got) if got == sent => return Ok(()),
                Some(got) if number_of(&got).is_some_and(|older| older < number) && self.is_ours(&got) => {
                    seen.repeated += 1
                }
                Some(got) => return Err(Wrong::Other(number, got)),
                None => sleep(POLL),
            }
        }
        Err(Wrong::NotCome(number, self.patience))
    }

    fn is_ours(&self, got: &[u8]) -> bool {
        number_of(got).is_some_and(|number| got == message(number, self.size))
    }
}

fn shown(sent: &[u8]) -> String {
    let text = String::from_utf8_lossy(&sent[..sent.len().min(40)]);
    let more = if sent.len() > 40 { ".." } else { "" };
    format!("'{text}{more}'")
}

#[cfg(test)]
mod tests {
    use super::*;

    #[test]
    fn messages_carry_their_number() {
        for (number, size) in [(1, 8), (7, 24), (99_999_999, 65_497)] {
            let bytes = message(number, size);
            assert_eq!((bytes.len(), number_of(&bytes)), (size, Some(number)));
        }
        assert_eq!(number_of(b"0000001"), None);
    }
}
