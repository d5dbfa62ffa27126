//! The search for an object number (document 02, W4): in any lent row, also in one that no CREATE leads to, it ends at the last
//! record in use with that number.

mod common;

use common::*;
use wire::{Datagram, DATA_WRITER, ERR_UNKNOWN_REF, OK, PUBLISHER};
use xrce_agent::lent::ObjectRecord;

const PLACES: usize = 32;
const HANDLES: u32 = 1_000;

// The record at a place has a handle of its own.
fn record(place: usize, number: u16) -> ObjectRecord {
    ObjectRecord { number, kind: DATA_WRITER, bridged: 1, handle: HANDLES + place as u32, parent: 0 }
}

// The number of a place, unless a test gives it another.
fn own_number(place: usize) -> u16 {
    100 + place as u16
}

// Session 1 with a full row of records with these numbers, of which the first `used` are in use.
fn row(used: usize, numbers: impl Fn(usize) -> u16) -> Fixture {
    let mut fixture = Fixture::new();
    fixture.opens();
    for place in 0..PLACES {
        fixture.tables.objects[PLACES + place] = record(place, numbers(place));
    }
    fixture.tables.sessions[1][3] = used as u64;
    fixture
}

// The records of session 1, and how many are in use.
fn kept(fixture: &Fixture) -> (Vec<ObjectRecord>, u64) {
    (fixture.tables.objects[PLACES..2 * PLACES].to_vec(), fixture.tables.sessions[1][3])
}

// The place whose handle a WRITE_DATA calls with; none where the number is unknown.
fn found(fixture: &mut Fixture, number: u16) -> Option<usize> {
    assert_eq!(fixture.datagram(&Datagram::new(1, 0).write_data(number, b"s").bytes()), 0);
    if fixture.record.call == 0 {
        assert_eq!(fixture.replied(), status(1, number, ERR_UNKNOWN_REF));
        return None;
    }
    assert_eq!(fixture.record.call, WRITE_DATA);
    let place = fixture.record.handle - u64::from(HANDLES);
    assert_eq!(fixture.answer(DONE, 0, &[]), 0);
    assert_eq!(fixture.replied(), status(1, number, OK));
    Some(place as usize)
}

// Places at both ends of a row and in its middle, in pairs, the lower first.
fn pairs() -> impl Iterator<Item = (usize, usize)> {
    const SOME: [usize; 8] = [0, 1, 2, 15, 16, 29, 30, 31];
    SOME.into_iter().flat_map(|a| SOME.into_iter().filter(move |b| a < *b).map(move |b| (a, b)))
}

// From the last record in use down to the first, both included, and nothing behind.
#[test]
fn each_record_in_use_is_found_and_none_other() {
    for used in 0..=PLACES {
        let mut fixture = row(used, own_number);
        for place in [0, 1, used.saturating_sub(2), used.saturating_sub(1), used, 31] {
            let expected = (place < used).then_some(place);
            assert_eq!(found(&mut fixture, own_number(place)), expected, "place {place} of {used}");
        }
        assert_eq!(found(&mut fixture, 7), None, "{used} in use");
    }
}

#[test]
fn of_two_with_one_number_the_last_in_use_is_found() {
    for (a, b) in pairs() {
        let mut fixture = row(PLACES, |place| if place == a || place == b { 7 } else { own_number(place) });
        for used in [0, 1, a, a + 1, b, b + 1, PLACES] {
            fixture.tables.sessions[1][3] = used as u64;
            let expected = [b, a].into_iter().find(|place| *place < used);
            assert_eq!(found(&mut fixture, 7), expected, "places {a} and {b} of {used}");
        }
    }
}

// The last record in use comes into the place; the other of that number stays where it is, and goes with the next DELETE.
#[test]
fn the_last_of_two_is_deleted() {
    for (a, b) in pairs() {
        let mut fixture = row(PLACES, |place| if place == a || place == b { 7 } else { own_number(place) });
        for (used, place) in [(PLACES, b), (PLACES - 1, a)] {
            let (mut expected, _) = kept(&fixture);
            expected[place] = expected[used - 1];
            let handle = u64::from(fixture.tables.objects[PLACES + place].handle);
            assert_eq!(fixture.datagram(&Datagram::new(1, 0).delete(7).bytes()), 0);
            assert_eq!((fixture.record.call, fixture.record.handle), (DELETE_ENTITY, handle), "places {a} and {b}");
            assert_eq!(fixture.answer(DONE, 0, &[]), 0);
            assert_eq!(kept(&fixture), (expected, used as u64 - 1), "places {a} and {b}");
        }
        assert_eq!(found(&mut fixture, 7), None, "places {a} and {b}");
    }
}

#[test]
fn a_create_replaces_the_last_of_two() {
    for (a, b) in pairs() {
        let mut fixture = row(PLACES, |place| if place == a || place == b { 7 } else { own_number(place) });
        let (mut expected, used) = kept(&fixture);
        expected[b] = ObjectRecord { number: 7, kind: PUBLISHER, bridged: 0, handle: 0, parent: 9 };
        assert_eq!(fixture.datagram(&Datagram::new(1, 0).create(7, PUBLISHER, 9, &[]).bytes()), 0);
        assert_eq!(fixture.replied(), status(1, 7, OK));
        assert_eq!(kept(&fixture), (expected, used), "places {a} and {b}");
    }
}
