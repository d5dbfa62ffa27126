//! Windows and minutes by chance, for scripts inside the domain of comparison: "The Rust is compared where the minute is open" (document
//! 02, W8), so writes come in open minutes, and all else in any.

use crate::chance::Chance;
use crate::hours::{all_week, fit, Window};
use hdds_xrce::protocol::{parse_message, Submessage};

/// Windows that a set-up takes: now and then none, mostly some a weekday, which often touch; those of several weekdays come mixed.
pub fn windows(chance: &mut Chance) -> Vec<Window> {
    let most = chance.pick(&[0, 1, 2, 6, 20, 56]);
    let (mut ends, mut counts, mut all) = ([0; 7], [0; 7], Vec::new());
    for _ in 0..most {
        let day = chance.below(7) as usize;
        let from =
            ends[day] + chance.pick(&[0, 0, 1, 100]) + if chance.one_in(4) { chance.below(480) as u16 } else { 0 };
        let to = chance.pick(&[from + 1, from + 60, from + 400, 1440]);
        if from < to && to <= 1440 && counts[day] < 8 {
            (ends[day], counts[day]) = (to, counts[day] + 1);
            all.push(Window::new(day as u16, from, to));
        }
    }
    all
}

/// Windows that a set-up refuses, each for one fault: empty, outside the day, overlapping, out of order, or a ninth.
pub fn wrong_windows(chance: &mut Chance) -> Vec<Window> {
    let day = chance.below(7) as u16;
    let of_day = |all: &[(u16, u16)]| all.iter().map(|(from, to)| Window::new(day, *from, *to)).collect();
    let mut wrong: Vec<Window> = match chance.below(8) {
        0 => of_day(&[(480, 480)]),
        1 => of_day(&[(480, 479)]),
        2 => of_day(&[(480, 1441)]),
        3 => vec![Window::new(chance.pick(&[7, 8, 255]), 480, 1320)],
        4 => of_day(&[(480, 600), (599, 700)]),
        5 => of_day(&[(480, 600), (480, 600)]),
        6 => of_day(&[(600, 700), (480, 600)]),
        _ => (0..9).map(|at| Window::new(day, 100 * at, 100 * at + chance.pick(&[1, 100]))).collect(),
    };
    // Windows of another weekday between and round them.
    if chance.one_in(2) {
        let other = Window::new((day + 1) % 7, 5, 1440);
        wrong.insert(chance.below(wrong.len() as u64 + 1) as usize, other);
    }
    assert!(!fit(&wrong), "{wrong:?}");
    wrong
}

/// The windows behind a set-up's limits: left out where every minute is open.
pub fn windows_words(chance: &mut Chance, windows: &[Window]) -> String {
    if windows == all_week() && !chance.one_in(8) {
        return String::new();
    }
    windows.iter().fold(" windows".to_string(), |words, window| format!("{words} {window}"))
}

/// The words behind a datagram's bytes; a number that is 0 is often left out.
pub fn minute_words(chance: &mut Chance, (day, minute): (u8, u16)) -> String {
    let mut words = String::new();
    if day != 0 || chance.one_in(4) {
        words += &format!(" day={day}");
    }
    if minute != 0 || chance.one_in(4) {
        words += &format!(" minute={minute}");
    }
    words
}

/// A minute of the week, often one at which a window begins or ends.
pub fn any_minute(chance: &mut Chance, windows: &[Window]) -> (u8, u16) {
    if windows.is_empty() || chance.one_in(3) {
        return (chance.below(7) as u8, chance.below(1440) as u16);
    }
    let window = chance.pick(windows);
    let near = [window.from.saturating_sub(1), window.from, window.to - 1, window.to];
    (window.day as u8, chance.pick(&near).min(1439))
}

/// An open minute, often the first or the last of a window. There is a window.
pub fn open_minute(chance: &mut Chance, windows: &[Window]) -> (u8, u16) {
    let window = chance.pick(windows);
    let between = chance.within(window.from.into(), u64::from(window.to) - 1) as u16;
    (window.day as u8, chance.pick(&[window.from, window.to - 1, between]))
}

/// A minute that there isn't.
pub fn no_minute(chance: &mut Chance) -> (u8, u16) {
    chance.pick(&[(7, 0), (7, 1439), (255, 480), (0, 1440), (6, 1440), (3, 65_535), (255, 65_535)])
}

/// Whether a datagram that reads holds a WRITE_DATA.
pub fn writes(datagram: &[u8]) -> bool {
    parse_message(datagram)
        .is_ok_and(|message| message.submessages.iter().any(|one| matches!(one, Submessage::WriteData(_))))
}
