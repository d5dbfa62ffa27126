//! Memory with a guard page on both sides, and SIGTERM: all unsafe code of this program. For Linux.

use std::ffi::c_void;

unsafe extern "C" {
    fn mmap(addr: *mut c_void, len: usize, prot: i32, flags: i32, fd: i32, offset: i64) -> *mut c_void;
    fn mprotect(addr: *mut c_void, len: usize, prot: i32) -> i32;
    fn kill(pid: i32, signal: i32) -> i32;
}

const NONE: i32 = 0;
const READ_WRITE: i32 = 1 | 2;
const PRIVATE_ANONYMOUS: i32 = 0x02 | 0x20;
// At least the page of every machine that this is run on.
const PAGE: usize = 65_536;

/// Numbers of which every bit pattern is one.
pub trait Plain {}
impl Plain for u8 {}
impl Plain for u16 {}
impl Plain for u32 {}
impl Plain for u64 {}
impl Plain for [u64; 8] {}
impl Plain for [u16; 35] {}
impl Plain for xrce_agent::lent::AgentRecord {}
impl Plain for xrce_agent::lent::ObjectRecord {}
impl Plain for xrce_agent::Window {}

/// Room for a number of elements, zeroed; a read or write before or behind it ends the process by SIGSEGV.
pub struct Guarded<T: Plain> {
    start: *mut T,
    end: *mut T,
    most: usize,
}

/// At which guard page a slice lies: right behind the one, or right before the other.
#[derive(Clone, Copy, Debug)]
pub enum Side {
    Start,
    End,
}

impl<T: Plain> Guarded<T> {
    pub fn new(most: usize) -> Self {
        let pages = (most * size_of::<T>()).div_ceil(PAGE).max(1) * PAGE;
        // SAFETY: a fresh private mapping; only its middle is made accessible, and it is never unmapped.
        unsafe {
            let whole = mmap(std::ptr::null_mut(), pages + 2 * PAGE, NONE, PRIVATE_ANONYMOUS, -1, 0);
            assert!(whole as isize != -1, "no memory for a guarded store");
            let inner = whole.cast::<u8>().add(PAGE);
            assert!(mprotect(inner.cast(), pages, READ_WRITE) == 0, "guard pages can't be set");
            Guarded { start: inner.cast(), end: inner.add(pages).cast(), most }
        }
    }

    /// `len` elements that touch that guard page. Slices of both sides may be the same memory, so one at a time is lent.
    pub fn slice(&mut self, side: Side, len: usize) -> &mut [T] {
        assert!(len <= self.most);
        // SAFETY: `most` elements fit between the guards, all zeroed or written as T, of which every bit pattern is a
        // value; both ends are page-aligned and a size is a multiple of its alignment, so each place is aligned; the
        // borrow of self keeps slices apart.
        unsafe {
            let at = match side {
                Side::Start => self.start,
                Side::End => self.end.sub(len),
            };
            std::slice::from_raw_parts_mut(at, len)
        }
    }
}

/// Asks a process of ours to end.
pub fn terminate(child: &std::process::Child) {
    // SAFETY: `kill` takes numbers; the process hasn't been waited for, so its id is still its own.
    unsafe { kill(child.id() as i32, 15) };
}

/// Writes one element outside of a guarded store: the process must end here.
pub fn trip(side: Side) {
    let mut store: Guarded<u64> = Guarded::new(5);
    let slice = store.slice(side, 5);
    // SAFETY: none; this shows that the guard pages stop such a write. It never returns where they do.
    unsafe {
        match side {
            Side::Start => slice.as_mut_ptr().sub(1).write_volatile(1),
            Side::End => slice.as_mut_ptr().add(5).write_volatile(1),
        }
    }
}
