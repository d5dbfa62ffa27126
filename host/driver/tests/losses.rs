//! The client over a way that loses DATA (document 02, W5): it asks for what is missing, and every message comes once, in order
//! and byte for byte, which the program itself compares.

mod common;

use common::{driver, host, told};
use std::sync::atomic::{AtomicUsize, Ordering};
use std::sync::Arc;
use wire::{Body, Reply};

const WRITER: u16 = 3;

fn is_data(reply: &[u8]) -> bool {
    matches!(Reply::read(reply), Some(Reply { body: Body::Data { .. }, .. }))
}

// A write that was done: an agent's reply about the writer, whether or not it arrives.
fn is_write(reply: &[u8]) -> bool {
    matches!(Reply::read(reply), Some(Reply { body: Body::Status { object: WRITER, .. }, .. }))
}

#[test]
fn every_third_data_is_lost_and_nothing_is_written_twice() {
    let (data, writes) = (Arc::new(AtomicUsize::new(0)), Arc::new(AtomicUsize::new(0)));
    let (all, written) = (data.clone(), writes.clone());
    // Of all DATA in the order in which it is sent, repeats included.
    let address = host(move |_, reply| {
        written.fetch_add(usize::from(is_write(reply)), Ordering::Relaxed);
        let lost = is_data(reply) && all.fetch_add(1, Ordering::Relaxed) % 3 == 2;
        (!lost).then(|| reply.to_vec())
    });
    let (code, out, error) = told(&driver(&["--host", &address, "--messages", "12", "--size", "1014"]));
    assert_eq!(code, Some(0), "{error}");
    assert!(out.contains("12 messages of 1014 bytes written and read back, none missing or wrong"), "{out}");
    assert!(!out.contains(" 0 times asked for repeats") && out.contains(" 0 samples came twice"), "{out}");
    // The objects' creation and deletion count for the writer too.
    assert_eq!(writes.load(Ordering::Relaxed), 12 + 2);
    assert!(data.load(Ordering::Relaxed) >= 12 + 5);
}

// Replies 1 to 5 open the session and its objects. The reply to the first write is lost, so it is written again, and two
// samples are there; the first one's DATA is lost, and its repeat. The second read brings number 1: number 0 is missing.
#[test]
fn a_number_that_is_passed_over_is_asked_for() {
    let address = host(|count, reply| (![6, 8, 9].contains(&count)).then(|| reply.to_vec()));
    let (code, out, error) = told(&driver(&["--host", &address, "--messages", "3", "--stream", "200"]));
    assert_eq!(code, Some(0), "{error}");
    assert!(out.contains("3 messages of 24 bytes written and read back, none missing or wrong"), "{out}");
    assert!(out.contains("2 requests sent again, 2 times asked for repeats, 1 samples came twice"), "{out}");
}

// More messages than an agent holds of a stream: what has come is acknowledged on the way.
#[test]
fn the_places_of_the_agent_do_not_fill_up() {
    let address = host(|_, reply| Some(reply.to_vec()));
    for stream in ["1", "127", "255", "0"] {
        let (code, out, error) = told(&driver(&["--host", &address, "--messages", "100", "--stream", stream]));
        assert_eq!(code, Some(0), "stream {stream}: {error}");
        assert!(out.contains("100 messages of 24 bytes written and read back, none missing or wrong"), "{out}");
    }
}

// An agent from before document 02 numbers no DATA: it is served on stream 0.
#[test]
fn an_agent_that_numbers_nothing_is_read_on_stream_0() {
    let unnumbered = |_, reply: &[u8]| {
        let mut reply = reply.to_vec();
        reply[2..4].fill(0);
        Some(reply)
    };
    let (code, out, error) = told(&driver(&["--host", &host(unnumbered), "--messages", "20", "--stream", "0"]));
    assert_eq!(code, Some(0), "{error}");
    assert!(out.contains("20 messages of 24 bytes written and read back, none missing or wrong"), "{out}");
}
