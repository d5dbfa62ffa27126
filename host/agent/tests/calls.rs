//! All seven bridge calls of the C interface, with every answer that fits and every one that doesn't.

mod common;

use common::*;
use wire::{strings, Datagram};
use xrce_agent::lent::{self, AgentRecord, ObjectRecord, Tables, Told};
use xrce_agent::ALL_WEEK;

// The last seven numbers of the record: what the call is and what it names.
fn told(fixture: &Fixture) -> [u64; 7] {
    let record = &fixture.record;
    [record.call, record.handle, record.topic, record.start, record.len, record.type_start, record.type_len]
}

// A datagram for session 1 that opens a call; then each input that doesn't fit is refused as 15 and leaves it open.
fn opens(fixture: &mut Fixture, datagram: Datagram, call: [u64; 7], fits: &[u8]) {
    let bytes = datagram.bytes();
    assert_eq!(fixture.datagram(&bytes), 0);
    assert_eq!(told(fixture), call);
    for input in 0..=255 {
        if !fits.contains(&input) {
            assert_eq!(fixture.answer(input, 9, &[]), 15, "input {input} to call {}", call[0]);
        }
    }
    assert_eq!(fixture.remove(WHOLE, 1), 15);
    assert_eq!(fixture.sweep(WHOLE, 255, 9999), 15);
    assert_eq!(told(fixture), call);
}

fn closes(fixture: &mut Fixture, input: u8, handle: u32, sample: &[u8], reply: &[u8]) {
    assert_eq!(fixture.answer(input, handle, sample), 0);
    assert_eq!(fixture.replied(), reply);
    let AgentRecord { max_clients, timeout_ms, next, wrote, .. } = fixture.record;
    assert_eq!(fixture.record, AgentRecord { max_clients, timeout_ms, next, wrote, ..AgentRecord::default() });
}

#[test]
fn create_participant() {
    let mut fixture = Fixture::new();
    fixture.opens();
    let create = || Datagram::new(1, 0).create(1, 1, 77, &[]);
    opens(&mut fixture, create(), [CREATE_PARTICIPANT, 77, 0, 0, 0, 0, 0], &[CREATED, FAILED]);
    closes(&mut fixture, FAILED, 0, &[], &status(1, 1, 2));
    assert_eq!(fixture.tables.sessions[1][3], 0);
    opens(&mut fixture, create(), [CREATE_PARTICIPANT, 77, 0, 0, 0, 0, 0], &[CREATED, FAILED]);
    closes(&mut fixture, CREATED, u32::MAX, &[], &status(1, 1, 0));
    let object = fixture.tables.objects[32];
    assert_eq!(object, ObjectRecord { number: 1, kind: 1, bridged: 1, handle: u32::MAX, parent: 77 });
}

#[test]
fn create_topic_with_its_names_in_the_datagram() {
    let mut fixture = Fixture::with_objects();
    let create = Datagram::new(1, 0).create(9, 2, 1, &strings(b"name", b"type!"));
    let bytes = create.clone().bytes();
    opens(&mut fixture, create, [CREATE_TOPIC, 11, 0, 15, 4, 21, 5], &[CREATED, FAILED]);
    assert_eq!((&bytes[15..19], &bytes[21..26]), (&b"name"[..], &b"type!"[..]));
    closes(&mut fixture, CREATED, 5, &[], &status(1, 9, 0));
}

#[test]
fn create_writer_and_reader_take_participant_and_topic() {
    for (kind, call) in [(5, CREATE_WRITER), (6, CREATE_READER)] {
        let mut fixture = Fixture::with_objects();
        let create = || Datagram::new(1, 0).create(9, kind, 2, &[]);
        opens(&mut fixture, create(), [call, 11, 12, 0, 0, 0, 0], &[CREATED, FAILED]);
        closes(&mut fixture, CREATED, 5, &[], &status(1, 9, 0));
        opens(&mut fixture, create(), [call, 11, 12, 0, 0, 0, 0], &[CREATED, FAILED]);
        closes(&mut fixture, FAILED, 5, &[], &status(1, 9, 2));
    }
}

#[test]
fn a_writer_and_a_reader_follow_the_topic_that_they_name() {
    let mut fixture = Fixture::with_objects();
    fixture.creates(5, wire::PARTICIPANT, 0);
    fixture.creates(6, wire::TOPIC, 5);
    for (topic, participant) in [(2, 1), (6, 5), (2, 1)] {
        for (kind, call) in [(wire::DATA_WRITER, CREATE_WRITER), (wire::DATA_READER, CREATE_READER)] {
            let create = Datagram::new(1, 0).create(9, kind, topic, &[]);
            let pair = [call, 10 + participant, 10 + u64::from(topic), 0, 0, 0, 0];
            opens(&mut fixture, create, pair, &[CREATED, FAILED]);
            assert_eq!(fixture.record.parent, u64::from(topic));
            closes(&mut fixture, CREATED, 90, &[], &status(1, 9, 0));
            let made = ObjectRecord { number: 9, kind, bridged: 1, handle: 90, parent: topic };
            assert!(fixture.tables.objects[32..64].contains(&made), "{made:?}");
        }
    }
}

#[test]
fn a_writer_or_reader_whose_parent_leads_to_no_participant() {
    let mut fixture = Fixture::with_objects();
    assert_eq!(fixture.datagram(&Datagram::new(1, 0).create(5, wire::PUBLISHER, 2, &[]).bytes()), 0);
    // Any object with a handle is taken as a Topic's parent.
    fixture.creates(6, wire::TOPIC, 2);
    let invalid = |fixture: &mut Fixture, parent| {
        for kind in [wire::DATA_WRITER, wire::DATA_READER] {
            assert_eq!(fixture.datagram(&Datagram::new(1, 0).create(9, kind, parent, &[]).bytes()), 0);
            assert_eq!((fixture.record.open, fixture.record.call), (0, 0), "kind {kind}, parent {parent}");
            assert_eq!(fixture.replied(), status(1, 9, wire::ERR_INVALID_DATA), "kind {kind}, parent {parent}");
        }
    };
    // Nothing, a Participant, a writer, a reader, a Publisher, a Topic of a Topic, and a number of which 2 is the low byte.
    for parent in [9, 1, 3, 4, 5, 6, 0x0102] {
        invalid(&mut fixture, parent);
    }
    // A Topic may name a writer, which goes before it; the Topic then names nothing, and later a Participant.
    fixture.creates(7, wire::TOPIC, 3);
    assert_eq!(fixture.datagram(&Datagram::new(1, 0).delete(3).bytes()), 0);
    assert_eq!(fixture.answer(DONE, 0, &[]), 0);
    invalid(&mut fixture, 7);
    fixture.creates(3, wire::PARTICIPANT, 0);
    fixture.creates(9, wire::DATA_WRITER, 7);
}

#[test]
fn write_data() {
    let mut fixture = Fixture::with_objects();
    let write = || Datagram::new(1, 0).write_data(3, b"abc");
    opens(&mut fixture, write(), [WRITE_DATA, 13, 0, 10, 3, 0, 0], &[DONE, FAILED]);
    closes(&mut fixture, DONE, 0, &[], &status(1, 3, 0));
    opens(&mut fixture, write(), [WRITE_DATA, 13, 0, 10, 3, 0, 0], &[DONE, FAILED]);
    closes(&mut fixture, FAILED, 0, &[], &status(1, 3, 2));
}

#[test]
fn read_data() {
    let mut fixture = Fixture::with_objects();
    let call = [READ_DATA, 14, 0, 0, 0, 0, 0];
    let fits = [SAMPLE, NO_SAMPLE, FAILED];
    let read = || Datagram::new(1, 0).read_data(4);
    opens(&mut fixture, read(), call, &fits);
    closes(&mut fixture, SAMPLE, 0, b"xyz", &Datagram::new(1, 0).data(4, b"xyz").bytes());
    opens(&mut fixture, read(), call, &fits);
    closes(&mut fixture, NO_SAMPLE, 0, &[], &status(1, 4, 0));
    opens(&mut fixture, read(), call, &fits);
    closes(&mut fixture, FAILED, 0, &[], &status(1, 4, 2));
}

#[test]
fn delete_entity_drops_the_object_even_if_the_bridge_fails() {
    for (input, code) in [(DONE, 0), (FAILED, 1)] {
        let mut fixture = Fixture::with_objects();
        let delete = || Datagram::new(1, 0).delete(4);
        opens(&mut fixture, delete(), [DELETE_ENTITY, 14, 0, 0, 0, 0, 0], &[DONE, FAILED]);
        closes(&mut fixture, input, 0, &[], &status(1, 4, code));
        assert_eq!(fixture.datagram(&delete().bytes()), 0);
        assert_eq!(fixture.replied(), status(1, 4, 1));
    }
}

#[test]
fn a_publisher_has_no_handle() {
    let mut fixture = Fixture::with_objects();
    let datagram = Datagram::new(1, 0).create(14, 3, 0, &[]).write_data(14, b"x").read_data(14).delete(14).bytes();
    assert_eq!(fixture.datagram(&datagram), 0);
    assert_eq!(fixture.record.call, 0);
    let replies = [status(1, 14, 0), status(1, 14, 1), status(1, 14, 1), status(1, 14, 0)].concat();
    assert_eq!(fixture.replied(), replies);
}

#[test]
fn replies_before_a_call_come_with_it_and_the_rest_after() {
    let mut fixture = Fixture::with_objects();
    let datagram = Datagram::new(1, 0).delete(99).write_data(3, b"a").heartbeat(0, 2).delete(98).bytes();
    assert_eq!(fixture.datagram(&datagram), 0);
    assert_eq!((fixture.record.call, fixture.replied()), (WRITE_DATA, &status(1, 99, 1)[..]));
    assert_eq!(fixture.answer(DONE, 0, &[]), 0);
    let acknack = Datagram::new(1, 0).acknack(0, 7).bytes();
    assert_eq!(fixture.replied(), [status(1, 3, 0), acknack, status(1, 98, 1)].concat());
}

#[test]
fn an_answer_without_a_call_is_out_of_turn() {
    let mut fixture = Fixture::with_objects();
    for input in 1..=255 {
        assert_eq!(fixture.answer(input, 1, b"s"), 15, "input {input}");
    }
    assert_eq!(fixture.process(WHOLE, Told { input: 6, ..Told::default() }), 15);
}

#[test]
fn of_two_records_the_first_is_the_agents() {
    let (mut tables, mut out) = (Tables::new(4), [FILL; 64]);
    let other = AgentRecord { max_clients: 256, open: 9, wrote: u64::MAX, ..AgentRecord::default() };
    let mut records = [other.clone(), other.clone()];
    assert_eq!(lent::setup(&mut records, tables.lend(), &ALL_WEEK, 4, 1000), 0);
    let datagram = Datagram::new(0, 0).create_client([1, 2, 3, 4]).bytes();
    let told = Told { datagram: &datagram, ..Told::default() };
    assert_eq!(lent::process(&mut records, tables.lend(), &mut out, told), 0);
    let first = AgentRecord { max_clients: 4, timeout_ms: 1000, next: 2, wrote: 11, ..AgentRecord::default() };
    assert_eq!(records, [first, other]);
    assert_eq!(lent::sweep(&records, &mut tables.sessions, &mut out, 1000), 0);
    assert_eq!(lent::remove(&records, &mut tables.sessions, 1), 65_536);
}
