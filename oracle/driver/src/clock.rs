//! The script's time. `Instant::now` asks the C library's `clock_gettime`, and the linker takes the one defined here, so
//! the original reads the milliseconds that a script gives.

use std::sync::atomic::{AtomicU64, Ordering};
use std::time::Instant;

static MILLISECONDS: AtomicU64 = AtomicU64::new(0);

#[repr(C)]
pub struct Timespec {
    seconds: i64,
    nanoseconds: i64,
}

/// # Safety
/// `time` points to a `timespec` that the caller may write, as for the C library's function.
#[no_mangle]
pub unsafe extern "C" fn clock_gettime(_clock: i32, time: *mut Timespec) -> i32 {
    let now = MILLISECONDS.load(Ordering::Relaxed);
    *time = Timespec { seconds: (now / 1000) as i64, nanoseconds: (now % 1000) as i64 * 1_000_000 };
    0
}

/// From here on it is `time`, be it later or earlier.
pub fn set(time: u64) {
    MILLISECONDS.store(time, Ordering::Relaxed);
}

/// The script's time at which `at` was taken.
pub fn milliseconds(at: Instant) -> u64 {
    let now = MILLISECONDS.swap(0, Ordering::Relaxed);
    let start = Instant::now();
    set(now);
    at.duration_since(start).as_millis() as u64
}

#[cfg(test)]
mod tests {
    use super::*;

    #[test]
    fn the_original_reads_the_scripts_time() {
        for time in [0, 1, 999, 1000, 1 << 40, u64::MAX] {
            set(time);
            assert_eq!(milliseconds(Instant::now()), time);
        }
        set(70);
        let last = Instant::now();
        set(50);
        assert_eq!(last.elapsed().as_millis(), 0);
    }
}
