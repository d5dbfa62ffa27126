//! Two clocks: the milliseconds that both agents are given, and the processor's time, by which they are timed.
//!
//! The original asks `Instant::now` at each submessage, which asks the C library's `clock_gettime`; the linker takes the
//! one defined here. So the original gets its time as cheaply as the port does, and a session can be left to expire.

use std::sync::atomic::{AtomicBool, AtomicU64, Ordering};
use std::time::Instant;

static MILLISECONDS: AtomicU64 = AtomicU64::new(0);
static MACHINES: AtomicBool = AtomicBool::new(false);

#[repr(C)]
pub struct Timespec {
    seconds: i64,
    nanoseconds: i64,
}

extern "C" {
    // Reads the machine's clock as `clock_gettime` does, under a name that isn't taken here.
    fn timespec_get(time: *mut Timespec, base: i32) -> i32;

    // The processor's time that this program has used, in microseconds.
    fn clock() -> i64;
}
const TIME_UTC: i32 = 1;

/// # Safety
/// `time` points to a `timespec` that the caller may write, as for the C library's function.
#[no_mangle]
pub unsafe extern "C" fn clock_gettime(_clock: i32, time: *mut Timespec) -> i32 {
    if MACHINES.load(Ordering::Relaxed) {
        timespec_get(time, TIME_UTC);
        return 0;
    }
    let now = MILLISECONDS.load(Ordering::Relaxed);
    *time = Timespec { seconds: (now / 1000) as i64, nanoseconds: (now % 1000) as i64 * 1_000_000 };
    0
}

/// From here on it is `time`, be it later or earlier.
pub fn set(time: u64) {
    MILLISECONDS.store(time, Ordering::Relaxed);
}

/// Whether `Instant::now` reads the machine's clock from here on, or what `set` was told.
pub fn use_machines(yes: bool) {
    MACHINES.store(yes, Ordering::Relaxed);
}

/// The processor's time in nanoseconds, to a microsecond: what other programs take of the core isn't counted.
pub fn nanoseconds() -> u64 {
    // SAFETY: it takes nothing and gives a number.
    1000 * unsafe { clock() } as u64
}

/// What a host does that has to tell the time with a datagram: milliseconds since `start`, by `Instant::now`.
pub fn milliseconds_since(start: Instant) -> u64 {
    start.elapsed().as_millis() as u64
}
