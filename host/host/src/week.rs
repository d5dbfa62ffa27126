//! The weekday and minute of a datagram, from the machine's clock (document 02, W8). Weekday 0 is Monday. The standard library knows
//! UTC alone, so a flag says by how many minutes the clock that counts is ahead of it.

use std::time::{SystemTime, UNIX_EPOCH};

/// The machine's clock counts from the beginning of 1970 by UTC, a Thursday.
const THURSDAY: i64 = 3;

/// Weekday and minute on a clock that is `ahead` minutes ahead of UTC, so many seconds behind the beginning of 1970.
fn minute_at(seconds: i64, ahead: i64) -> (u8, u16) {
    let minutes = seconds.div_euclid(60) + ahead;
    let day = minutes.div_euclid(1440) + THURSDAY;
    (day.rem_euclid(7) as u8, minutes.rem_euclid(1440) as u16)
}

/// The same of this moment.
pub fn now(ahead: i64) -> (u8, u16) {
    let seconds = match SystemTime::now().duration_since(UNIX_EPOCH) {
        Ok(since) => since.as_secs() as i64,
        Err(error) => -(error.duration().as_secs() as i64),
    };
    minute_at(seconds, ahead)
}

#[cfg(test)]
mod tests {
    use super::*;

    #[test]
    fn weekday_0_is_monday() {
        for (seconds, weekday, minute) in [
            (0, 3, 0),
            (59, 3, 0),
            (60, 3, 1),
            (-1, 2, 1439),
            (86_399, 3, 1439),
            (86_400, 4, 0),
            (3 * 86_400, 6, 0),
            (4 * 86_400, 0, 0),
            // 29 February 2000, a Tuesday, at noon; 31 December 2023, a Sunday, in its last second.
            (951_825_600, 1, 720),
            (1_704_067_199, 6, 1439),
        ] {
            assert_eq!(minute_at(seconds, 0), (weekday, minute), "{seconds} s");
        }
    }

    #[test]
    fn a_clock_ahead_of_utc_or_behind_it() {
        let sunday_night = 1_704_067_199;
        for (ahead, told) in [(1, (0, 0)), (60, (0, 59)), (840, (0, 839)), (-1439, (6, 0)), (-1440, (5, 1439))] {
            assert_eq!(minute_at(sunday_night, ahead), told, "{ahead} minutes ahead");
        }
        assert!(now(0).0 < 7 && now(-720).1 < 1440);
    }
}
