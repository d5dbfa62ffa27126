//! SIGINT and SIGTERM ask the host to end. The only unsafe code of this program.

use std::sync::atomic::{AtomicBool, Ordering};

const SIGINT: i32 = 2;
const SIGTERM: i32 = 15;

static ASKED: AtomicBool = AtomicBool::new(false);

unsafe extern "C" {
    fn signal(number: i32, handler: extern "C" fn(i32)) -> usize;
}

extern "C" fn ask(_number: i32) {
    ASKED.store(true, Ordering::Relaxed);
}

/// From here on the two signals are noted and end nothing by themselves.
pub fn listen() {
    for number in [SIGINT, SIGTERM] {
        // SAFETY: `signal` is libc's; the handler only stores into an atomic, which may be done in a signal handler.
        unsafe { signal(number, ask) };
    }
}

/// Whether one has come.
pub fn asked_to_end() -> bool {
    ASKED.load(Ordering::Relaxed)
}
