//! Quiet hours (document 02, W8): the windows that set-up takes, and what comes with a datagram.

/// A window in which a weekday is open, from and to in minutes of the day: with 480 to 1,320, minute 480 is open and 1,320 closed. It
/// is `xrce_window`. The host says which weekday is 0, and whose clock counts.
#[repr(C)]
#[derive(Clone, Copy, Debug, Default, PartialEq, Eq)]
pub struct Window {
    /// The weekday, 0 to 6.
    pub day: u16,
    /// The first open minute.
    pub from: u16,
    /// The first closed one behind it, at most 1,440.
    pub to: u16,
}

impl Window {
    /// A window.
    pub const fn new(day: u16, from: u16, to: u16) -> Self {
        Window { day, from, to }
    }

    const fn whole(day: u16) -> Self {
        Window::new(day, 0, 1440)
    }
}

/// The windows of a host without quiet hours: every minute of the week is open.
pub const ALL_WEEK: [Window; 7] = [
    Window::whole(0),
    Window::whole(1),
    Window::whole(2),
    Window::whole(3),
    Window::whole(4),
    Window::whole(5),
    Window::whole(6),
];

/// What the host gives with a datagram. Weekday and minute count for all of its submessages, those behind a bridge call too.
#[derive(Clone, Copy, Debug, Default, PartialEq, Eq)]
pub struct Given {
    /// Its time in milliseconds.
    pub time_ms: u64,
    /// Its weekday, 0 to 6.
    pub day: u8,
    /// Its minute of that day, 0 to 1,439.
    pub minute: u16,
}

impl Given {
    /// A time alone, for a host without quiet hours: weekday 0 and minute 0, which [`ALL_WEEK`] opens.
    pub const fn at(time_ms: u64) -> Self {
        Given { time_ms, day: 0, minute: 0 }
    }
}

/// The weekday and minute in an answer's number: 0 if there is none, else 1 more than the minute's place in the week.
pub(crate) fn minute_of(number: u64) -> Option<(u8, u16)> {
    let place = number.checked_sub(1)?;
    Some(((place / 1440) as u8, (place % 1440) as u16))
}
