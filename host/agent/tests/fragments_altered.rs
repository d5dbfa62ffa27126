//! Stores of fragments, rebuilt bytes and an open call's places in them that were altered past a limit (document 01, 16; document
//! 02, W6). The fixture checks each time that a refused call changed no byte.

mod common;

use common::*;
use wire::{Datagram, ERR_UNKNOWN_REF, OK};
use xrce_agent::lent::LENGTHS;

const WRITER: u16 = 3;
/// An object that there isn't: a DELETE of it is answered, and no call is made.
const NOTHING: u16 = 99;

// Places of a session's row: of its fragments their total and how many there are.
const TOTAL: usize = 6;
const RECEIVED: usize = 7;

fn store(fixture: &Fixture, session: usize) -> (u64, u64) {
    let row = &fixture.tables.sessions[session];
    (row[TOTAL], row[RECEIVED])
}

// A FRAGMENT on stream 0 of session 1.
fn fragment(fixture: &mut Fixture, number: u16, total: u16, body: &[u8]) -> u64 {
    fixture.datagram(&Datagram::new(1, 0).fragment(number, total, body).bytes())
}

fn unknown(object: u16) -> Vec<u8> {
    status(1, object, ERR_UNKNOWN_REF)
}

// 16, right after 15 and before 1 to 5, of the session that is named and of no other.
fn refuses_16(fixture: &mut Fixture, what: &str) {
    for stream in [0, 9] {
        assert_eq!(fixture.datagram(&Datagram::new(1, stream).delete(NOTHING).bytes()), 16, "{what}");
    }
    assert_eq!(fixture.datagram(&[1, 0, 0, 0]), 16, "{what}");
    assert_eq!(fixture.datagram(&Datagram::new(2, 0).delete(NOTHING).bytes()), 0, "{what}");
    assert_eq!(fixture.datagram(&Datagram::new(9, 0).delete(NOTHING).bytes()), 0, "{what}");
}

#[test]
fn altered_numbers_of_a_store() {
    let mut fixture = Fixture::with_objects();
    fixture.opens();
    assert_eq!(fragment(&mut fixture, 1, 3, b"abc"), 0);
    assert_eq!(fragment(&mut fixture, 2, 3, b"abc"), 0);
    // Total and received: over 64, more received than there are, some received of none.
    for (total, received) in
        [(65, 2), (u64::MAX, 2), (1 << 32, 0), (3, 4), (3, u64::MAX), (0, 1), (0, u64::MAX), (64, 65)]
    {
        let row = fixture.tables.sessions[1];
        fixture.tables.sessions[1][TOTAL] = total;
        fixture.tables.sessions[1][RECEIVED] = received;
        refuses_16(&mut fixture, &format!("{received} of {total}"));
        fixture.tables.sessions[1] = row;
    }
    for length in [514, 515, 1 << 16, u32::MAX] {
        for place in 0..3 {
            let kept = std::mem::replace(&mut fixture.tables.lengths[place], length);
            refuses_16(&mut fixture, &format!("length {length} at {place}"));
            fixture.tables.lengths[place] = kept;
        }
    }
    // What lies behind the total is never used.
    fixture.tables.lengths[3] = u32::MAX;
    fixture.tables.lengths[LENGTHS] = u32::MAX;
    assert_eq!(fragment(&mut fixture, 0, 3, b""), 0);
    assert_eq!(store(&fixture, 1), (0, 0));
}

// The same in a row that isn't live: a row that a call left free has neither.
#[test]
fn altered_numbers_of_a_free_row() {
    let mut fixture = Fixture::with_objects();
    fixture.tables.sessions[2][TOTAL] = 65;
    assert_eq!(fixture.datagram(&Datagram::new(2, 0).delete(NOTHING).bytes()), 16);
    assert_eq!(fixture.datagram(&Datagram::new(1, 0).delete(NOTHING).bytes()), 0);
}

// A WRITE_DATA's call in a rebuilt message of two DELETEs more, its datagram, and how many rebuilt bytes there are.
fn with_an_open_call() -> (Fixture, u64) {
    let mut fixture = Fixture::with_objects();
    let message = Datagram::new(0, 0).write_data(WRITER, b"abcd").delete(90).delete(91).submessages();
    assert_eq!(fixture.datagram(&Datagram::new(1, 0).fragment(0, 1, &message).delete(92).bytes()), 0);
    assert_eq!((fixture.record.left_at, fixture.record.left_end), (10, 22));
    (fixture, 22)
}

#[test]
fn altered_places_of_an_open_call() {
    let places = [
        (10, 21),
        (10, 23),
        (10, 11),
        (10, 13),
        (11, 22),
        (9, 22),
        (23, 22),
        (11, 10),
        (u64::MAX, 22),
        (10, 32_769),
        (10, 1 << 32),
        (10, u64::MAX),
        (0, 32_769),
        (0, u64::MAX),
        (u64::MAX, u64::MAX),
        (10, 0),
    ];
    for (left_at, left_end) in places {
        let (mut fixture, _) = with_an_open_call();
        (fixture.record.left_at, fixture.record.left_end) = (left_at, left_end);
        assert_eq!(fixture.answer(DONE, 0, &[]), 16, "{left_at} to {left_end}");
        assert_eq!(fixture.answer(CREATED, 0, &[]), 15, "{left_at} to {left_end}");
        (fixture.record.left_at, fixture.record.left_end) = (10, 22);
        assert_eq!(fixture.answer(DONE, 0, &[]), 0);
        assert_eq!(fixture.replied(), [status(1, WRITER, OK), unknown(90), unknown(91), unknown(92)].concat());
    }
    // Between two submessages, and at the end, is a place as good as any.
    for (left_at, replies) in [(16, 3), (22, 2)] {
        let (mut fixture, _) = with_an_open_call();
        fixture.record.left_at = left_at;
        assert_eq!((fixture.answer(DONE, 0, &[]), fixture.record.wrote), (0, 11 * replies));
    }
}

#[test]
fn rebuilt_bytes_that_are_altered_while_a_call_is_open() {
    // Ids that aren't listed, a FRAGMENT, a CREATE_CLIENT, another length, of the first and of the second DELETE.
    for (at, byte) in
        [(10, 3), (10, 0x0F), (10, 0), (12, 1), (12, 255), (13, 1), (16, 0x10), (16, 0x0F), (16, 0), (18, 3)]
    {
        let (mut fixture, _) = with_an_open_call();
        let kept = std::mem::replace(&mut fixture.tables.rebuilt[at], byte);
        assert_eq!(fixture.answer(DONE, 0, &[]), 16, "byte {at} = {byte}");
        fixture.tables.rebuilt[at] = kept;
        assert_eq!((fixture.answer(DONE, 0, &[]), fixture.record.wrote), (0, 44));
    }
    // What came before the call isn't looked at again, nor what lies behind the end; what reads is handled.
    let (mut fixture, end) = with_an_open_call();
    fixture.tables.rebuilt[..10].fill(FILL);
    fixture.tables.rebuilt[end as usize..].fill(FILL);
    fixture.tables.rebuilt[14] = 89;
    assert_eq!(fixture.answer(DONE, 0, &[]), 0);
    assert_eq!(fixture.replied(), [status(1, WRITER, OK), unknown(89), unknown(91), unknown(92)].concat());
}

#[test]
fn a_store_that_is_altered_while_a_call_is_open() {
    let (mut fixture, _) = with_an_open_call();
    fixture.tables.sessions[1][TOTAL] = 65;
    assert_eq!(fixture.answer(DONE, 0, &[]), 16);
    assert_eq!(fixture.answer(SAMPLE, 0, &[]), 15);
    fixture.tables.sessions[1][TOTAL] = 0;
    assert_eq!(fixture.answer(DONE, 0, &[]), 0);
}
