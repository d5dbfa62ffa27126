//! Taking down in order (document 02, W3): what another object depends on stays, and a session's objects are listed so that
//! it never comes to that.

mod common;

use common::*;
use wire::{
    strings, Datagram, DATA_READER, DATA_WRITER, ERR_INCOMPATIBLE, ERR_INVALID_DATA, ERR_RESOURCES, ERR_UNKNOWN_REF,
    OK, PARTICIPANT, PUBLISHER, SUBSCRIBER, TOPIC,
};
use xrce_agent::lent::ObjectRecord;

const KINDS: [u8; 6] = [PARTICIPANT, TOPIC, PUBLISHER, SUBSCRIBER, DATA_WRITER, DATA_READER];

fn delete(object: u16) -> Datagram {
    Datagram::new(1, 0).delete(object)
}

fn create(object: u16, kind: u8, parent: u16) -> Datagram {
    Datagram::new(1, 0).create(object, kind, parent, &strings(b"n", b"t"))
}

// A datagram about an object of session 1 that is answered by that status at once, without a call.
fn answers(fixture: &mut Fixture, datagram: Datagram, object: u16, code: u8) {
    assert_eq!(fixture.datagram(&datagram.bytes()), 0);
    assert_eq!((fixture.record.open, fixture.record.call), (0, 0), "object {object}");
    assert_eq!(fixture.replied(), status(1, object, code), "object {object}");
}

// DELETE, and CREATE as any kind under any parent, are answered ERR_INCOMPATIBLE, and all objects are as before.
fn stays(fixture: &mut Fixture, object: u16) {
    let before = fixture.tables.clone();
    answers(fixture, delete(object), object, ERR_INCOMPATIBLE);
    for kind in KINDS {
        for parent in [1, 2, object, 999] {
            answers(fixture, create(object, kind, parent), object, ERR_INCOMPATIBLE);
        }
    }
    assert!(fixture.tables.objects == before.objects, "object {object} was altered");
    assert_eq!(fixture.tables.sessions[1][3], before.sessions[1][3]);
}

// DELETE goes through, with the call that its handle asks for.
fn goes(fixture: &mut Fixture, object: u16) {
    assert_eq!(fixture.datagram(&delete(object).bytes()), 0);
    assert_eq!((fixture.record.call, fixture.record.handle), (DELETE_ENTITY, 10 + u64::from(object)));
    assert_eq!(fixture.answer(DONE, 0, &[]), 0);
    assert_eq!(fixture.replied(), status(1, object, OK));
}

#[test]
fn what_another_depends_on_stays_until_that_one_is_gone() {
    let mut fixture = Fixture::with_objects();
    stays(&mut fixture, 1);
    stays(&mut fixture, 2);
    goes(&mut fixture, 3);
    stays(&mut fixture, 2);
    goes(&mut fixture, 4);
    stays(&mut fixture, 1);
    goes(&mut fixture, 2);
    goes(&mut fixture, 1);
    answers(&mut fixture, delete(1), 1, ERR_UNKNOWN_REF);
}

#[test]
fn a_topic_on_which_nothing_depends_is_replaced_and_leaves_its_participant_free() {
    let mut fixture = Fixture::with_objects();
    fixture.creates(5, PARTICIPANT, 0);
    goes(&mut fixture, 3);
    goes(&mut fixture, 4);
    assert_eq!(fixture.datagram(&create(2, TOPIC, 5).bytes()), 0);
    assert_eq!(fixture.answer(FAILED, 0, &[]), 0);
    assert_eq!(fixture.replied(), status(1, 2, ERR_INVALID_DATA));
    stays(&mut fixture, 1);
    fixture.creates(2, TOPIC, 5);
    stays(&mut fixture, 5);
    goes(&mut fixture, 1);
}

// Of all pairs of kinds three depend. The parent number in the record counts, whether or not either has a handle.
#[test]
fn which_kind_depends_on_which() {
    for (kind, below) in KINDS.iter().flat_map(|kind| KINDS.map(|below| (*kind, below))) {
        let depends = matches!((kind, below), (PARTICIPANT, TOPIC) | (TOPIC, DATA_WRITER | DATA_READER));
        for (bridged, parent) in [(0, 7), (1, 7), (0, 0x0107), (1, 8)] {
            let mut fixture = Fixture::new();
            fixture.opens();
            let record = |number, kind, parent| ObjectRecord { number, kind, bridged, handle: 17, parent };
            fixture.tables.objects[32..34].copy_from_slice(&[record(7, kind, 0), record(8, below, parent)]);
            fixture.tables.sessions[1][3] = 2;
            match (depends && parent == 7, bridged) {
                (true, _) => stays(&mut fixture, 7),
                (false, 0) => answers(&mut fixture, delete(7), 7, OK),
                (false, _) => goes(&mut fixture, 7),
            }
        }
    }
}

#[test]
fn a_participant_under_a_topic_that_named_another_kind_before() {
    let mut fixture = Fixture::with_objects();
    fixture.creates(5, TOPIC, 4);
    // A reader has no dependants, so it may become a Participant under the Topic's feet: the Topic then depends on it.
    fixture.creates(4, PARTICIPANT, 0);
    stays(&mut fixture, 4);
    goes(&mut fixture, 5);
    goes(&mut fixture, 4);
}

#[test]
fn a_dependant_is_gone_with_its_own_delete_even_if_the_bridge_fails() {
    for (input, code) in [(DONE, OK), (FAILED, ERR_UNKNOWN_REF)] {
        let mut fixture = Fixture::with_objects();
        goes(&mut fixture, 3);
        assert_eq!(fixture.datagram(&Datagram::new(1, 0).delete(4).delete(2).delete(1).bytes()), 0);
        for (object, code) in [(4, code), (2, code), (1, code)] {
            assert_eq!((fixture.record.call, fixture.record.handle), (DELETE_ENTITY, 10 + u64::from(object)));
            assert_eq!(fixture.answer(input, 0, &[]), 0);
            assert_eq!(fixture.replied(), status(1, object, code));
        }
        assert_eq!(fixture.list(WHOLE, 0, 1), Ok(vec![]));
    }
}

#[test]
fn the_same_numbers_in_another_session_depend_on_nothing_here() {
    let mut fixture = Fixture::with_objects();
    fixture.opens();
    let participant = Datagram::new(2, 0).create(1, PARTICIPANT, 0, &[]).create(9, PUBLISHER, 1, &[]).bytes();
    assert_eq!((fixture.datagram(&participant), fixture.answer(CREATED, 21, &[])), (0, 0));
    assert_eq!(fixture.list(WHOLE, 32, 1), Ok(vec![4, 3, 2, 1]));
    assert_eq!(fixture.list(WHOLE, 2, 2), Ok(vec![9, 1]));
    assert_eq!(fixture.datagram(&Datagram::new(2, 0).delete(1).bytes()), 0);
    assert_eq!((fixture.record.call, fixture.record.handle), (DELETE_ENTITY, 21));
    assert_eq!(fixture.answer(DONE, 0, &[]), 0);
    stays(&mut fixture, 1);
}

#[test]
fn in_a_full_session_a_33rd_number_is_too_many_and_a_number_in_use_may_have_dependants() {
    let mut fixture = Fixture::with_objects();
    for number in 5..=32 {
        answers(&mut fixture, create(number, PUBLISHER, 2), number, OK);
    }
    for kind in KINDS {
        answers(&mut fixture, create(33, kind, 2), 33, ERR_RESOURCES);
    }
    stays(&mut fixture, 1);
    stays(&mut fixture, 2);
    assert_eq!(fixture.list(WHOLE, 31, 1), Err(13));
    let all: Vec<u16> = [4, 3].into_iter().chain(5..=32).chain([2, 1]).collect();
    assert_eq!(fixture.list(WHOLE, 32, 1), Ok(all));
}

// Session 1 with objects of all kinds, made in no order; which number is which kind.
fn mixed() -> Fixture {
    let mut fixture = Fixture::new();
    fixture.opens();
    for (object, kind, parent) in [
        (300, PARTICIPANT, 0),
        (9, PARTICIPANT, 1),
        (200, TOPIC, 300),
        (0, TOPIC, 9),
        (256, DATA_WRITER, 200),
        (1, DATA_READER, 0),
        (255, DATA_WRITER, 0),
        (65_535, DATA_READER, 200),
        (2, DATA_READER, 0),
        (0x0102, TOPIC, 9),
    ] {
        fixture.creates(object, kind, parent);
    }
    for (object, kind) in [(7, SUBSCRIBER), (400, PUBLISHER), (6, PUBLISHER), (5, SUBSCRIBER)] {
        answers(&mut fixture, create(object, kind, 9), object, OK);
    }
    fixture
}

const LISTED: [u16; 14] = [1, 2, 65_535, 255, 256, 5, 7, 6, 400, 0, 200, 0x0102, 9, 300];

#[test]
fn kind_6_comes_first_and_numbers_ascend_within_a_kind() {
    let mut fixture = mixed();
    for room in 0..LISTED.len() {
        assert_eq!(fixture.list(WHOLE, room, 1), Err(13), "room {room}");
    }
    for room in [LISTED.len(), LISTED.len() + 1, 32, 255] {
        assert_eq!(fixture.list(WHOLE, room, 1), Ok(LISTED.to_vec()), "room {room}");
    }
    // A number that becomes another kind has another place, and is listed once.
    answers(&mut fixture, create(1, PUBLISHER, 0), 1, OK);
    let listed = vec![2, 65_535, 255, 256, 5, 7, 1, 6, 400, 0, 200, 0x0102, 9, 300];
    assert_eq!(fixture.list(WHOLE, 32, 1), Ok(listed));
}

#[test]
fn an_id_that_is_not_live_has_none() {
    let mut fixture = mixed();
    fixture.opens();
    for id in [0, 2, 3, 255] {
        assert_eq!(fixture.list(WHOLE, 0, id), Ok(vec![]), "id {id}");
    }
    let mut altered = fixture.clone();
    altered.tables.sessions[1][0] = 0;
    assert_eq!(altered.list(WHOLE, 0, 1), Ok(vec![]), "whatever its row still counts");
    assert_eq!(fixture.remove(WHOLE, 1), 65_536);
    assert_eq!(fixture.list(WHOLE, 32, 1), Ok(vec![]));
    assert_eq!(Fixture::empty().list(WHOLE, 0, 1), Ok(vec![]));
}

#[test]
fn it_answers_while_a_call_is_open() {
    let mut fixture = mixed();
    // DELETE drops its object before its call, and CREATE lists its object with the answer.
    assert_eq!(fixture.datagram(&delete(65_535).bytes()), 0);
    let without: Vec<u16> = LISTED.into_iter().filter(|number| *number != 65_535).collect();
    assert_eq!(fixture.list(WHOLE, 32, 1), Ok(without.clone()));
    assert_eq!(fixture.list(WHOLE, 12, 1), Err(13));
    assert_eq!(fixture.answer(DONE, 0, &[]), 0);
    assert_eq!(fixture.datagram(&create(65_535, DATA_READER, 200).bytes()), 0);
    assert_eq!(fixture.list(WHOLE, 32, 1), Ok(without));
    assert_eq!(fixture.answer(CREATED, 1, &[]), 0);
    assert_eq!(fixture.list(WHOLE, 32, 1), Ok(LISTED.to_vec()));
}

#[test]
fn a_session_is_taken_down_along_its_listing() {
    let mut fixture = mixed();
    for number in fixture.list(WHOLE, 32, 1).unwrap() {
        assert_eq!(fixture.datagram(&delete(number).bytes()), 0);
        if fixture.record.call != 0 {
            assert_eq!((fixture.record.call, fixture.record.handle), (DELETE_ENTITY, 10 + u64::from(number)));
            assert_eq!(fixture.answer(DONE, 0, &[]), 0);
        }
        assert_eq!(fixture.replied(), status(1, number, OK));
    }
    assert_eq!(fixture.list(WHOLE, 0, 1), Ok(vec![]));
    // In the opposite order all that has dependants is refused.
    let mut fixture = mixed();
    for number in [300, 9, 200, 0] {
        stays(&mut fixture, number);
    }
    goes(&mut fixture, 0x0102);
}
