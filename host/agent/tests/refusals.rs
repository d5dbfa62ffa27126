//! Every refusal that the agent can give. The fixture checks each time that a refused call changed no byte.

mod common;

use common::*;
use wire::Datagram;
use xrce_agent::lent::{self, AgentRecord, Tables, Told, HOURS, OBJECTS, REBUILT, SESSIONS, STREAMS};
use xrce_agent::Refusal;

#[test]
fn datagrams_that_do_not_read() {
    let mut fixture = Fixture::with_objects();
    for (datagram, answer) in [
        (&[][..], 1),
        (&[1, 0, 0], 1),
        (&[1, 0, 0, 0], 1),
        (&[1, 0, 0, 0, 2, 0, 2], 1),
        (&[1, 0, 0, 0, 2, 0, 2, 0, 3], 1),
        (&[1, 0, 5, 0, 2, 0, 2, 0, 3, 0, 9], 1),
        (&[1, 0, 0, 0, 3, 0, 0, 0], 2 + 256 * 3),
        (&[1, 0, 0, 0, 255, 0, 0, 0], 2 + 256 * 255),
        (&[1, 0, 0, 0, 1, 0, 5, 0, 1, 0, 7, 0, 0], 3 + 256 * 7),
        (&[1, 0, 0, 0, 1, 0, 5, 0, 1, 0, 0, 0, 0], 3),
        (&[1, 0, 0, 0, 5, 0, 3, 0, 1, 0, 5], 4 + 256 * 5),
        (&[1, 0, 0, 0, 2, 0, 1, 0, 3], 5),
    ] {
        assert_eq!(fixture.datagram(datagram), answer, "{datagram:?}");
    }
    // The first failure refuses the whole datagram: the good submessage before it does nothing.
    let datagram = Datagram::new(1, 0).delete(3).submessage(0x03, &[]).bytes();
    assert_eq!(fixture.datagram(&datagram), 2 + 256 * 3);
}

#[test]
fn a_sample_that_no_data_can_carry() {
    let mut fixture = Fixture::with_objects();
    fixture.out = vec![FILL; 70_000];
    assert_eq!(fixture.datagram(&Datagram::new(1, 0).read_data(4).bytes()), 0);
    assert_eq!(fixture.answer(SAMPLE, 0, &vec![7; 65_534]), 12);
    assert_eq!(fixture.record.call, READ_DATA);
    assert_eq!(fixture.answer(SAMPLE, 0, &vec![7; 65_533]), 0);
    assert_eq!(fixture.replied(), Datagram::new(1, 0).data(4, &vec![7; 65_533]).bytes());
}

#[test]
fn an_output_that_is_too_short() {
    let mut fixture = Fixture::with_objects();
    let (open, acknack) =
        (Datagram::new(0, 0).create_client([0; 4]).bytes(), Datagram::new(1, 0).heartbeat(0, 0).bytes());
    for (datagram, need) in [(open, 11), (acknack, 12)] {
        for room in 0..need {
            fixture.out.resize(room, FILL);
            assert_eq!(fixture.datagram(&datagram), 13, "room {room}");
        }
        fixture.out.resize(need, FILL);
        assert_eq!(fixture.datagram(&datagram), 0);
    }
    // Handing out a call needs no room; its answer does, and stays open until there is some.
    fixture.out.clear();
    assert_eq!(fixture.datagram(&Datagram::new(1, 0).write_data(3, b"a").bytes()), 0);
    assert_eq!(fixture.answer(DONE, 0, &[]), 13);
    fixture.out.resize(11, FILL);
    assert_eq!(fixture.answer(DONE, 0, &[]), 0);
}

#[test]
fn a_datagram_while_a_call_is_open() {
    let mut fixture = Fixture::with_objects();
    assert_eq!(fixture.datagram(&Datagram::new(1, 0).read_data(4).bytes()), 0);
    // 15 is checked first: before 16, and before the datagram is read.
    let short = Short { sessions: 0, ..WHOLE };
    assert_eq!(fixture.process(short, Told::default()), 15);
    assert_eq!(fixture.datagram(&[1, 0, 0, 0]), 15);
}

// Without a record nobody knows of an open call: 16, but for an input that there isn't.
#[test]
fn no_record() {
    let none = Short { agents: 0, ..WHOLE };
    let mut idle = Fixture::with_objects();
    let mut open = idle.clone();
    assert_eq!(open.datagram(&Datagram::new(1, 0).read_data(4).bytes()), 0);
    for fixture in [&mut Fixture::empty(), &mut idle, &mut open] {
        for input in 0..=255 {
            let told = Told { input, datagram: &[1, 0, 0, 0], ..Told::default() };
            let answer = if input > FAILED { 15 } else { 16 };
            assert_eq!(fixture.process(none, told), answer, "input {input}");
            assert_eq!(fixture.process(Short { sessions: 0, ..none }, told), answer, "input {input}");
        }
        assert_eq!(fixture.setup(none, 4, 1000), 16);
        assert_eq!(fixture.setup(none, 256, 1000), 16);
        assert_eq!(fixture.remove(none, 1), 16);
        assert_eq!(fixture.sweep(none, 0, u64::MAX), 16);
        // The listing takes no record.
        assert!(fixture.list(none, 32, 1).is_ok());
    }
}

#[test]
fn stores_under_their_need() {
    let shorts = [
        Short { agents: 0, ..WHOLE },
        Short { sessions: SESSIONS - 1, ..WHOLE },
        Short { sessions: 0, ..WHOLE },
        Short { streams: STREAMS - 1, ..WHOLE },
        Short { streams: 0, ..WHOLE },
        Short { objects: OBJECTS - 1, ..WHOLE },
        Short { objects: 0, ..WHOLE },
        Short { held: WHOLE.held - 1, ..WHOLE },
        Short { held: 0, ..WHOLE },
        Short { parts: WHOLE.parts - 1, ..WHOLE },
        Short { parts: 0, ..WHOLE },
        Short { lengths: WHOLE.lengths - 1, ..WHOLE },
        Short { lengths: 0, ..WHOLE },
        Short { rebuilt: REBUILT - 1, ..WHOLE },
        Short { rebuilt: 0, ..WHOLE },
        Short { hours: HOURS - 1, ..WHOLE },
        Short { hours: 0, ..WHOLE },
    ];
    let mut fixture = Fixture::with_objects();
    let datagram = Datagram::new(1, 0).delete(4).bytes();
    for short in shorts {
        assert_eq!(fixture.setup(short, CLIENTS, 1000), 16);
        assert_eq!(fixture.process(short, Told { datagram: &datagram, ..Told::default() }), 16);
    }
    for short in &shorts[..3] {
        assert_eq!(fixture.remove(*short, 1), 16);
        assert_eq!(fixture.sweep(*short, 255, 0), 16);
    }
    // A removal and a sweep take no store.
    let none = Short { rebuilt: 0, hours: 0, ..for_clients(0) };
    assert_eq!(fixture.remove(none, 9), 0);
    assert_eq!(fixture.sweep(none, 255, 0), 0);
    // A listing looks at the sessions and the objects, and at no stream and no held message; 16 comes before 13.
    for (at, short) in shorts.iter().enumerate() {
        let answer = [1, 2, 5, 6].contains(&at).then_some(16);
        let listed = answer.map_or(Ok(vec![4, 3, 2, 1]), Err);
        assert_eq!(fixture.list(*short, 32, 1), listed);
        assert_eq!(fixture.list(*short, 0, 1), Err(answer.unwrap_or(13)));
    }
    assert_eq!(fixture.datagram(&datagram), 0);
    // With an answer the week's minutes aren't looked at.
    let (all_but_hours, hours) = shorts.split_at(shorts.len() - 2);
    for short in all_but_hours {
        assert_eq!(fixture.process(*short, Told { input: DONE, datagram: &datagram, ..Told::default() }), 16);
    }
    assert_eq!(fixture.process(hours[1], Told { input: DONE, datagram: &datagram, ..Told::default() }), 0);
}

#[test]
fn limits_of_the_set_up() {
    let mut fixture = Fixture::with_objects();
    for max in [256, 65_536, 1 << 32, u64::MAX] {
        assert_eq!(fixture.setup(WHOLE, max, 1000), 16);
        assert_eq!(lent::need(max), 16);
    }
    for max in [0, 1, CLIENTS, 255] {
        fixture.tables = Tables::new(max);
        assert_eq!(fixture.setup(for_clients(max), max, 0), 0);
        let need = lent::read(lent::need(max)).unwrap();
        let store = 7 * 16 * 1024 + 64 * (512 + 4);
        assert_eq!(need, 256 * 64 + 2048 * 70 + 8192 * 10 + 32_768 + 10_080 + store * max);
        // Document 01: "at most 1,048,576 × (max_clients + 1) bytes in all".
        assert!(need <= 1_048_576 * (max + 1));
    }
}

// A set-up measures the stores and the place of rebuilt bytes and leaves all of them, whatever stood there.
#[test]
fn a_set_up_leaves_the_stores() {
    let mut fixture = Fixture::with_objects();
    fixture.tables.held.fill(FILL);
    fixture.tables.parts.fill(FILL);
    fixture.tables.lengths.fill(0xA5A5_A5A5);
    fixture.tables.rebuilt.fill(FILL);
    let before = fixture.tables.clone();
    assert_eq!(fixture.setup(WHOLE, CLIENTS + 1, 1000), 16);
    for max in [0, 1, CLIENTS] {
        assert_eq!(fixture.setup(WHOLE, max, 1000), 0);
        assert!(fixture.tables.held == before.held && fixture.tables.parts == before.parts, "{max} clients");
        assert!(fixture.tables.lengths == before.lengths && fixture.tables.rebuilt == before.rebuilt, "{max} clients");
        assert_eq!(fixture.setup(for_clients(max), max, 1000), 0, "{max} clients");
    }
}

// Places of next, kind, parent, session, stream and number, each with values that its field can't hold.
const PAST_THEIR_FIELD: [(usize, u64); 12] = [
    (2, 256),
    (2, u64::MAX),
    (4, 256),
    (4, u64::MAX),
    (5, 65_536),
    (5, u64::MAX),
    (6, 256),
    (6, u64::MAX),
    (7, 256),
    (7, u64::MAX),
    (8, 65_536),
    (8, u64::MAX),
];

// Numbers of the record past their limit: 16, whatever is asked; where they say that a call is open, 15 comes first.
#[test]
fn an_altered_record() {
    let datagram = Datagram::new(1, 0).delete(4).bytes();
    let limits = [(0, 256), (0, u64::MAX), (2, 0)].into_iter().chain(PAST_THEIR_FIELD);
    for (place, value) in limits {
        let mut fixture = Fixture::with_objects();
        *fixture.record.numbers_mut()[place] = value;
        assert_eq!(fixture.datagram(&datagram), 16, "number {place} = {value}");
        assert_eq!(fixture.datagram(&[]), 16, "number {place} = {value}");
        assert_eq!(fixture.answer(DONE, 0, &[]), 15, "number {place} = {value}");
        assert_eq!(fixture.remove(WHOLE, 1), 16, "number {place} = {value}");
        assert_eq!(fixture.sweep(WHOLE, 255, 0), 16, "number {place} = {value}");
    }
    for open in [1, 4, 5, 255, 256, u64::MAX] {
        let mut fixture = Fixture::with_objects();
        fixture.record.open = open;
        assert_eq!(fixture.datagram(&datagram), 15, "open {open}");
        assert_eq!(fixture.remove(WHOLE, 1), 15, "open {open}");
        assert_eq!(fixture.sweep(WHOLE, 255, 0), 15, "open {open}");
    }
}

// An open call that there isn't takes the answers of a DELETE's, and is refused then.
#[test]
fn an_open_call_of_no_kind() {
    for open in [5, 255, 256, 257, 1 << 32, u64::MAX] {
        let mut fixture = Fixture::with_objects();
        assert_eq!(fixture.datagram(&Datagram::new(1, 0).delete(4).bytes()), 0);
        fixture.record.open = open;
        for input in 0..=255 {
            let answer = if matches!(input, DONE | FAILED) { 16 } else { 15 };
            assert_eq!(fixture.answer(input, 9, b"s"), answer, "open {open}, input {input}");
        }
        fixture.record.open = 4;
        assert_eq!(fixture.answer(DONE, 0, &[]), 0);
    }
}

// What a record held for no reason is gone with the next call: numbers of no open call, and what was told before.
#[test]
fn a_call_writes_the_whole_record() {
    for place in 4..AgentRecord::NUMBERS {
        let (mut fixture, mut other) = (Fixture::with_objects(), Fixture::with_objects());
        let datagram = Datagram::new(1, 0).delete(99).bytes();
        *fixture.record.numbers_mut()[place] = 200;
        assert_eq!((fixture.datagram(&datagram), other.datagram(&datagram)), (0, 0));
        assert!(fixture == other, "number {place}");
        let told = AgentRecord { max_clients: 4, timeout_ms: 1000, next: 2, wrote: 11, ..AgentRecord::default() };
        assert_eq!(fixture.record, told, "number {place}");
        assert_eq!(fixture.setup(WHOLE, 3, 7), 0);
        let told = AgentRecord { max_clients: 3, timeout_ms: 7, next: 1, ..AgentRecord::default() };
        assert_eq!(fixture.record, told, "number {place}");
    }
}

#[test]
fn an_altered_record_with_a_call_open() {
    let limits = [(0, 256), (2, 0), (9, 11), (9, u64::MAX)].into_iter().chain(PAST_THEIR_FIELD);
    for (place, value) in limits {
        let mut fixture = Fixture::with_objects();
        assert_eq!(fixture.datagram(&Datagram::new(1, 0).delete(4).bytes()), 0);
        *fixture.record.numbers_mut()[place] = value;
        assert_eq!(fixture.answer(DONE, 0, &[]), 16, "number {place} = {value}");
        assert_eq!(fixture.answer(CREATED, 0, &[]), 15, "number {place} = {value}");
        assert_eq!(fixture.datagram(&[]), 15, "number {place} = {value}");
    }
}

// The rest of the datagram that is lent again must read, from the call's place on.
#[test]
fn another_datagram_lent_with_the_answer() {
    let mut fixture = Fixture::with_objects();
    assert_eq!(fixture.datagram(&Datagram::new(1, 0).delete(4).delete(3).bytes()), 0);
    let whole = std::mem::take(&mut fixture.kept);
    for kept in [&whole[..0], &whole[..9], &whole[..whole.len() - 1]] {
        fixture.kept = kept.to_vec();
        assert_eq!(fixture.answer(DONE, 0, &[]), 16, "{} bytes", kept.len());
    }
    fixture.kept = whole;
    assert_eq!(fixture.answer(DONE, 0, &[]), 0);
    assert_eq!((fixture.record.call, fixture.record.handle), (DELETE_ENTITY, 13));
}

// More objects or streams in use than a session has records for.
#[test]
fn altered_tables() {
    for (place, value) in [(3, 33), (3, u64::MAX), (4, 9), (4, u64::MAX)] {
        let mut fixture = Fixture::with_objects();
        fixture.tables.sessions[1][place] = value;
        assert_eq!(fixture.datagram(&Datagram::new(1, 0).delete(4).bytes()), 16, "{place} {value}");
        // A listing looks at the objects alone, and at no other session.
        let listed = if place == 3 { Err(16) } else { Ok(vec![4, 3, 2, 1]) };
        assert_eq!(fixture.list(WHOLE, 32, 1), listed, "{place} {value}");
        assert_eq!(fixture.list(WHOLE, 0, 2), Ok(vec![]), "{place} {value}");
    }
    // A free row with such a count was altered too.
    let mut fixture = Fixture::with_objects();
    fixture.tables.sessions[2][3] = 33;
    assert_eq!(fixture.list(WHOLE, 64, 2), Err(16));
}

#[test]
fn removal_and_sweep() {
    let mut fixture = Fixture::with_objects();
    fixture.opens();
    assert_eq!(fixture.remove(WHOLE, 0), 0);
    assert_eq!(fixture.remove(WHOLE, 9), 0);
    assert_eq!(fixture.sweep(WHOLE, 0, 1100), 0);
    assert_eq!(fixture.sweep(WHOLE, 1, 1101), 13);
    assert_eq!(fixture.sweep(WHOLE, 2, 1101), 2 * 65_536);
    assert_eq!(fixture.out[..3], [1, 2, FILL]);
    fixture.opens();
    assert_eq!(fixture.remove(WHOLE, 3), 65_536);
    assert_eq!(fixture.remove(WHOLE, 3), 0);
}

#[test]
fn a_full_table_is_a_status() {
    let mut fixture = Fixture::empty();
    assert_eq!(fixture.setup(WHOLE, 1, 1000), 0);
    fixture.opens();
    fixture.opens();
    assert_eq!(fixture.replied(), status(0, 0, 4));
}

#[test]
fn refusals_have_numbers_words_and_bytes() {
    for number in 1..=20 {
        let refusal = Refusal::numbered(number, 0xAB).unwrap();
        assert_eq!(refusal.number(), number);
        assert_eq!(refusal.byte(), (2..=4).contains(&number).then_some(0xAB));
        assert_eq!(lent::read(u64::from(number) + 256 * 0xAB), Err(refusal));
    }
    assert_eq!((Refusal::numbered(0, 0), Refusal::numbered(21, 0)), (None, None));
    assert_eq!(Refusal::UnknownSubmessageId(3).to_string(), "id not listed (0x03)");
    assert_eq!(Refusal::OutputTooShort.to_string(), "lent output shorter than the result");
    assert_eq!(Refusal::IllFormed.to_string(), "ill-formed UTF-8");
    assert_eq!(Refusal::NoSuchMinute.to_string(), "weekday over 6 or minute over 1,439");
    assert_eq!(lent::read(5 * 65_536), Ok(5));
}
