//! What quiet hours cost (document 02, W8). The original has none, so the port stands alone.

use crate::agent_rows::{standing_in, Objects, FEW};
use crate::datagrams::{datagram, status, write_data, OK, WRITER};
use crate::interface::{Window, ALL_WEEK};
use crate::port::Port;
use crate::timed::{Side, Timed};
use crate::works::Datagrams;
use std::hint::black_box;

const INCOMPATIBLE: u8 = 3;

/// Eight windows a weekday, each an hour long and an hour apart.
fn eight() -> Vec<Window> {
    (0..7).flat_map(|day| (0..8).map(move |at| [day, 120 * at, 120 * at + 60])).collect()
}

/// WRITE_DATA in that minute of the last weekday, once it is seen to be answered by that code.
fn writing(windows: &[Window], minute: u16, code: u8) -> Side<Port, Datagrams> {
    let objects = Objects { kinds: &[WRITER], count: FEW };
    let mut port = standing_in(Port::within(windows), 1, Some(objects));
    port.set_minute(6, minute);
    let mut side = Side::new(port, Datagrams::new(1, 0, &[write_data(FEW, 16)]), false);
    assert!(side.shown().starts_with(&datagram(1, 0, &status(FEW, code))), "a write in minute {minute}");
    side
}

/// A write where every minute is open, in the last minute of the last of eight windows, and in the minute behind it.
pub fn writes() -> [Side<Port, Datagrams>; 3] {
    [writing(&ALL_WEEK, 899, OK), writing(&eight(), 899, OK), writing(&eight(), 900, INCOMPATIBLE)]
}

/// The question for the first open minute where the given one is, and where it goes round the week: one minute is open, and the one
/// behind it is given.
pub fn questions() -> [impl FnMut(); 2] {
    [([0, 0, 1440], 700), ([0, 700, 701], 701)].map(|(window, minute)| {
        let port = Port::within(&[window]);
        assert_eq!(port.first_open(0, minute), 1 + 700, "the first open minute");
        move || {
            black_box(port.first_open(black_box(0), black_box(minute)));
        }
    })
}
