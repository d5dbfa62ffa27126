//! Once warm, the wrapper allocates nothing for a call.

use std::alloc::{GlobalAlloc, Layout, System};
use std::sync::atomic::{AtomicU64, Ordering};
use wire::{strings, Datagram};
use xrce_agent::{Agent, Answer, Call, Given, Handle, ALL_WEEK};

struct Counting;

static COUNT: AtomicU64 = AtomicU64::new(0);

// SAFETY: every call goes to the system's allocator unchanged.
unsafe impl GlobalAlloc for Counting {
    unsafe fn alloc(&self, layout: Layout) -> *mut u8 {
        COUNT.fetch_add(1, Ordering::Relaxed);
        // SAFETY: the caller's.
        unsafe { System.alloc(layout) }
    }

    unsafe fn dealloc(&self, place: *mut u8, layout: Layout) {
        // SAFETY: the caller's.
        unsafe { System.dealloc(place, layout) }
    }
}

#[global_allocator]
static ALLOCATOR: Counting = Counting;

fn serve(agent: &mut Agent, datagrams: &[Vec<u8>], out: &mut [u8]) {
    for datagram in datagrams {
        agent.incoming(datagram, Given::at(1), out).unwrap();
        while let Some(call) = agent.open_call() {
            let reads = matches!(call, Call::ReadData { .. });
            let answer = if reads { Answer::Sample(b"sample") } else { Answer::Created(Handle(1)) };
            agent.answer(answer, out).unwrap();
        }
    }
    agent.sweep(1, out).unwrap();
    assert_eq!(agent.list(1, &mut [0; 32]), Ok(&[3, 2, 1][..]));
    assert_eq!(agent.first_open(6, 1439), Ok(Some((6, 1439))));
}

#[test]
fn nothing_is_allocated_once_warm() {
    let mut agent = Agent::new(200, 1000, &ALL_WEEK).unwrap();
    let datagrams = [
        Datagram::new(0, 0).create_client([1; 4]).bytes(),
        Datagram::new(1, 0).create(1, 1, 0, &[]).heartbeat(0, 1).bytes(),
        Datagram::new(1, 0).create(2, 2, 1, &strings(b"n", b"t")).create(3, 6, 2, &[]).bytes(),
        Datagram::new(1, 0).delete(9).bytes(),
        // What is read on another stream than 0 is held, and repeated.
        Datagram::new(1, 7).read_data(3).acknack(0, 0xFFFF).bytes(),
    ];
    let mut out = [0; 512];
    serve(&mut agent, &datagrams, &mut out);
    let before = COUNT.load(Ordering::Relaxed);
    for _ in 0..100 {
        serve(&mut agent, &datagrams, &mut out);
    }
    assert_eq!(COUNT.load(Ordering::Relaxed), before);
}
