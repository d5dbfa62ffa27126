//! Quiet hours (document 02, W8). The original has none, so what windows say is worked out here, from their list alone.

use crate::words::number;
use std::fmt;

/// A window in which a weekday is open, from and to in minutes of the day.
#[derive(Debug, Clone, Copy, PartialEq, Eq)]
pub struct Window {
    pub day: u16,
    pub from: u16,
    pub to: u16,
}

impl Window {
    pub fn new(day: u16, from: u16, to: u16) -> Self {
        Window { day, from, to }
    }

    /// Of the word `DAY:FROM-TO`.
    pub fn read(word: &str) -> Option<Window> {
        let (day, minutes) = word.split_once(':')?;
        let (from, to) = minutes.split_once('-')?;
        Some(Window { day: number(day)?, from: number(from)?, to: number(to)? })
    }

    // "With 480 to 1,320, minute 480 is open and 1,320 closed."
    fn holds(&self, day: u8, minute: u16) -> bool {
        self.day == u16::from(day) && self.from <= minute && minute < self.to
    }
}

impl fmt::Display for Window {
    fn fmt(&self, f: &mut fmt::Formatter<'_>) -> fmt::Result {
        write!(f, "{}:{}-{}", self.day, self.from, self.to)
    }
}

/// What a script without windows has: every minute is open.
pub fn all_week() -> Vec<Window> {
    (0..7).map(|day| Window::new(day, 0, 1440)).collect()
}

/// Whether set-up takes the windows, or refuses them as 19: "a window empty, outside the day, overlapping, out of order or a ninth".
pub fn fit(windows: &[Window]) -> bool {
    let fits = |(at, window): (usize, &Window)| {
        let before: Vec<&Window> = windows[..at].iter().filter(|other| other.day == window.day).collect();
        window.day <= 6
            && window.from < window.to
            && window.to <= 1440
            && before.iter().all(|other| other.to <= window.from)
            && before.len() < 8
    };
    windows.iter().enumerate().all(fits)
}

/// 20 is for all others: "weekday over 6 or minute over 1,439".
pub fn is_minute(day: u8, minute: u16) -> bool {
    day <= 6 && minute <= 1439
}

pub fn is_open(windows: &[Window], day: u8, minute: u16) -> bool {
    windows.iter().any(|window| window.holds(day, minute))
}

// "the first open minute at or after a given one, round the week"
fn first_open(windows: &[Window], day: u8, minute: u16) -> Option<(u8, u16)> {
    let start = 1440 * u32::from(day) + u32::from(minute);
    let later = |minutes: u32| (start + minutes) % (7 * 1440);
    (0..7 * 1440)
        .map(|minutes| ((later(minutes) / 1440) as u8, (later(minutes) % 1440) as u16))
        .find(|(day, minute)| is_open(windows, *day, *minute))
}

/// The line that `open D M` prints.
pub fn open_line(windows: &[Window], day: u8, minute: u16) -> String {
    if !is_minute(day, minute) {
        return "refused 20".into();
    }
    match first_open(windows, day, minute) {
        Some((day, minute)) => format!("open {day} {minute}"),
        None => "never".into(),
    }
}

/// The weekday and minute in the words behind a datagram's bytes: `day=D`, then `minute=M`, and 0 for one that is left out.
pub fn minute_words(words: &[&str]) -> Option<(u8, u16)> {
    match *words {
        [] => Some((0, 0)),
        [day, minute] => Some((number(day.strip_prefix("day=")?)?, number(minute.strip_prefix("minute=")?)?)),
        [one] => match one.strip_prefix("day=") {
            Some(day) => Some((number(day)?, 0)),
            None => Some((0, number(one.strip_prefix("minute=")?)?)),
        },
        _ => None,
    }
}

#[cfg(test)]
mod tests {
    use super::*;

    fn all(words: &str) -> Vec<Window> {
        words.split(' ').filter_map(Window::read).collect()
    }

    #[test]
    fn windows_by_the_words_of_the_document() {
        let windows = all("2:480-1320");
        let open = |minute| is_open(&windows, 2, minute);
        assert_eq!([479, 480, 1319, 1320].map(open), [false, true, true, false]);
        assert_eq!(open_line(&windows, 2, 1320), "open 2 480");
        assert_eq!(open_line(&windows, 2, 700), "open 2 700");
        assert_eq!(open_line(&[], 0, 0), "never");
        assert_eq!((open_line(&windows, 7, 0), open_line(&[], 0, 1440)), ("refused 20".into(), "refused 20".into()));
        assert!(fit(&windows) && fit(&[]) && fit(&all_week()) && fit(&all("6:0-1 3:5-6 6:1-1440 3:6-7")));
    }

    #[test]
    fn windows_that_are_refused() {
        let nine: Vec<Window> = (0..9).map(|at| Window::new(1, at, at + 1)).collect();
        assert!(fit(&nine[1..]) && !fit(&nine));
        for words in ["0:5-5", "0:6-5", "0:0-1441", "7:0-1", "1:0-60 1:59-70", "1:60-70 2:0-1 1:0-60"] {
            assert!(!fit(&all(words)), "{words}");
        }
        assert_eq!((Window::read("1:2-65536"), Window::read("65536:1-2")), (None, None));
    }

    #[test]
    fn words_behind_a_datagram() {
        assert_eq!(minute_words(&[]), Some((0, 0)));
        assert_eq!(minute_words(&["day=6", "minute=1439"]), Some((6, 1439)));
        assert_eq!((minute_words(&["day=255"]), minute_words(&["minute=65535"])), (Some((255, 0)), Some((0, 65_535))));
        for words in [&["day=256"][..], &["minute=1", "day=1"], &["day=1", "day=1"], &["day="], &["line=1"]] {
            assert_eq!(minute_words(words), None, "{words:?}");
        }
    }
}
