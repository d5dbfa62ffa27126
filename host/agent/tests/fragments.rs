//! Messages in parts (document 02, W6). The fixture checks each time that a refused call changed no byte.

mod common;

use common::*;
use wire::{in_parts, strings, Datagram, DATA_WRITER, ERR_INCOMPATIBLE, ERR_RESOURCES, ERR_UNKNOWN_REF, OK, TOPIC};
use xrce_agent::lent::{AgentRecord, Told, LENGTHS, PARTS};
use xrce_agent::Given;

const WRITER: u16 = 3;
const READER: u16 = 4;
/// An object that there isn't: a DELETE of it is answered, and no call is made.
const NOTHING: u16 = 99;

// Places of a session's row: its slot, and of its fragments their total and how many there are.
const SLOT: usize = 5;
const TOTAL: usize = 6;
const RECEIVED: usize = 7;

fn store(fixture: &Fixture, session: usize) -> (u64, u64) {
    let row = &fixture.tables.sessions[session];
    (row[TOTAL], row[RECEIVED])
}

// A FRAGMENT on stream 0 of a session.
fn fragment(fixture: &mut Fixture, session: u8, number: u16, total: u16, body: &[u8]) -> u64 {
    fixture.datagram(&Datagram::new(session, 0).fragment(number, total, body).bytes())
}

fn unknown(object: u16) -> Vec<u8> {
    status(1, object, ERR_UNKNOWN_REF)
}

// Submessages without a header.
fn all(build: impl FnOnce(Datagram) -> Datagram) -> Vec<u8> {
    build(Datagram::new(0, 0)).submessages()
}

// The bytes that the open call shows.
fn shown(fixture: &Fixture) -> &[u8] {
    let AgentRecord { start, len, .. } = fixture.record;
    &fixture.tables.rebuilt[start as usize..][..len as usize]
}

fn sample(len: usize) -> Vec<u8> {
    (0..len).map(|at| (at * 7 + at / 256) as u8).collect()
}

#[test]
fn a_message_comes_in_any_order_and_with_repeats() {
    let data = sample(1700);
    let message = all(|datagram| datagram.write_data(WRITER, &data));
    let parts = in_parts(1, 0, &message, 512).unwrap();
    assert_eq!(parts.len(), 4);
    let orders = [vec![0, 1, 2, 3], vec![3, 2, 1, 0], vec![2, 0, 2, 3, 0, 0, 1], vec![1, 1, 1, 3, 0, 2]];
    for order in orders {
        let mut fixture = Fixture::with_objects();
        let (last, before) = order.split_last().unwrap();
        for part in before {
            assert_eq!(fixture.datagram(&parts[*part].clone().bytes()), 0, "{order:?}");
            assert_eq!((fixture.record.call, fixture.record.wrote), (0, 0), "{order:?}");
        }
        assert_eq!(store(&fixture, 1), (4, 3));
        assert_eq!(fixture.datagram(&parts[*last].clone().bytes()), 0);
        assert_eq!((fixture.record.call, fixture.record.handle), (WRITE_DATA, 13), "{order:?}");
        assert_eq!((fixture.record.left_at, fixture.record.left_end), (1706, 1706));
        assert!(shown(&fixture) == data && store(&fixture, 1) == (0, 0), "{order:?}");
        assert_eq!(fixture.answer(DONE, 0, &[]), 0);
        assert_eq!(fixture.replied(), status(1, WRITER, OK));
        assert_eq!((fixture.record.left_at, fixture.record.left_end), (0, 0));
    }
}

#[test]
fn a_repeated_number_replaces_its_body() {
    let mut fixture = Fixture::with_objects();
    let message = all(|datagram| datagram.delete(NOTHING));
    for (number, body) in [(0, &message[1..4]), (1, b"longer than it is"), (1, &message[3..]), (1, b"")] {
        assert_eq!(fragment(&mut fixture, 1, number, 3, body), 0);
    }
    assert_eq!(store(&fixture, 1), (3, 2));
    assert_eq!(fragment(&mut fixture, 1, 0, 3, &message[..5]), 0);
    assert_eq!(fragment(&mut fixture, 1, 2, 3, &message[5..]), 0);
    assert_eq!(fixture.replied(), unknown(NOTHING));
}

#[test]
fn what_may_not_be_changes_nothing_but_the_touch() {
    let mut fixture = Fixture::with_objects();
    assert_eq!(fragment(&mut fixture, 1, 1, 3, b"abc"), 0);
    let long = vec![1; 513];
    for (number, total, body) in [
        (0, 0, &b"a"[..]),
        (0, 65, b"a"),
        (64, 65, b"a"),
        (0, u16::MAX, b"a"),
        (3, 3, b"a"),
        (u16::MAX, 3, b"a"),
        (2, 2, b"a"),
        (0, 3, &long),
        (0, 64, &long),
    ] {
        let mut before = fixture.clone();
        let datagram = Datagram::new(1, 0).fragment(number, total, body).bytes();
        assert_eq!(fixture.process(WHOLE, Told { datagram: &datagram, given: Given::at(900), ..Told::default() }), 0);
        assert_eq!(fixture.tables.sessions[1][2], 900);
        before.tables.sessions[1][2] = 900;
        assert!(fixture.tables == before.tables, "{number} of {total}");
        assert_eq!((fixture.record.call, fixture.record.wrote), (0, 0));
        fixture.tables.sessions[1][2] = 100;
    }
    // Of a session that isn't live there is nothing to touch.
    let before = fixture.tables.clone();
    assert_eq!((fragment(&mut fixture, 2, 0, 3, b"a"), fragment(&mut fixture, 0, 0, 3, b"a")), (0, 0));
    assert!(fixture.tables == before);
}

#[test]
fn another_total_empties_the_store_first() {
    let mut fixture = Fixture::with_objects();
    let message = all(|datagram| datagram.delete(NOTHING));
    assert_eq!(fragment(&mut fixture, 1, 0, 3, &message[..2]), 0);
    assert_eq!(fragment(&mut fixture, 1, 1, 3, &message[2..]), 0);
    assert_eq!(store(&fixture, 1), (3, 2));
    assert_eq!(fragment(&mut fixture, 1, 1, 2, &message[3..]), 0);
    assert_eq!(store(&fixture, 1), (2, 1));
    // The third part of the first message is alone now.
    assert_eq!(fragment(&mut fixture, 1, 2, 3, b""), 0);
    assert_eq!((store(&fixture, 1), fixture.record.wrote), ((3, 1), 0));
    assert_eq!(fragment(&mut fixture, 1, 0, 1, &message), 0);
    assert_eq!((store(&fixture, 1), fixture.replied()), ((0, 0), &unknown(NOTHING)[..]));
}

#[test]
fn the_longest_message_has_64_parts_of_512_bytes() {
    let mut fixture = Fixture::with_objects();
    let data = sample(32_762);
    let message = all(|datagram| datagram.write_data(WRITER, &data));
    let parts = in_parts(1, 9, &message, 512).unwrap();
    assert_eq!((message.len(), parts.len()), (32_768, 64));
    for part in parts.into_iter().rev() {
        assert_eq!((fixture.record.call, fixture.datagram(&part.bytes())), (0, 0));
    }
    assert_eq!((fixture.record.call, fixture.record.left_end), (WRITE_DATA, 32_768));
    assert!(shown(&fixture) == data);
    assert_eq!(fixture.answer(DONE, 0, &[]), 0);
    assert_eq!(fixture.replied(), Datagram::new(1, 9).status(WRITER, OK).bytes());
    assert!(in_parts(1, 0, &[0; 32_769], 512).is_none() && in_parts(1, 0, &[], 512).is_none());
}

#[test]
fn rebuilt_submessages_go_one_by_one_under_the_header_of_the_last_part() {
    let mut fixture = Fixture::with_objects();
    let names = strings(b"bells", b"peal");
    let message = all(|datagram| {
        let first = datagram.delete(90).create(5, TOPIC, 1, &names).create(6, DATA_WRITER, 5, &[]);
        first.write_data(6, b"tune").heartbeat(0, 2).delete(91)
    });
    assert_eq!(fixture.datagram(&Datagram::new(1, 0).fragment(1, 2, &message[20..]).bytes()), 0);
    let last = Datagram::new(1, 7).delete(80).fragment(0, 2, &message[..20]).fragment(0, 2, b"next").delete(81);
    let on_7 = |object, code| Datagram::new(1, 7).status(object, code).bytes();
    assert_eq!(fixture.datagram(&last.bytes()), 0);
    assert_eq!(fixture.replied(), [on_7(80, ERR_UNKNOWN_REF), on_7(90, ERR_UNKNOWN_REF)].concat());
    let AgentRecord { call, handle, type_start, type_len, left_at, left_end, at, .. } = fixture.record;
    assert_eq!((call, handle, shown(&fixture)), (CREATE_TOPIC, 11, &b"bells"[..]));
    assert_eq!(&fixture.tables.rebuilt[type_start as usize..][..type_len as usize], b"peal");
    assert_eq!((left_at, left_end, at), (6 + 22, message.len() as u64, 4 + 6 + 28));
    // While it is open, nothing else is in turn.
    assert_eq!(fixture.datagram(&Datagram::new(1, 0).fragment(0, 2, b"a").bytes()), 15);
    assert_eq!((fixture.remove(WHOLE, 1), fixture.sweep(WHOLE, 255, 9999)), (15, 15));
    fixture.kept =
        Datagram::new(1, 7).delete(80).fragment(0, 2, &message[..20]).fragment(0, 2, b"next").delete(81).bytes();
    assert_eq!(fixture.answer(CREATED, 15, &[]), 0);
    assert_eq!((fixture.record.call, fixture.record.handle, fixture.record.topic), (CREATE_WRITER, 11, 15));
    assert_eq!(fixture.replied(), on_7(5, OK));
    assert_eq!(fixture.answer(CREATED, 16, &[]), 0);
    assert_eq!((fixture.record.call, fixture.record.handle, shown(&fixture)), (WRITE_DATA, 16, &b"tune"[..]));
    assert_eq!(fixture.answer(DONE, 0, &[]), 0);
    let acknack = Datagram::new(1, 7).acknack(0, 7).bytes();
    let rest = [on_7(6, OK), acknack, on_7(91, ERR_UNKNOWN_REF), on_7(81, ERR_UNKNOWN_REF)];
    assert_eq!((fixture.replied(), fixture.record.open), (&rest.concat()[..], 0));
    assert_eq!(store(&fixture, 1), (2, 1));
}

#[test]
fn refused_rebuilt_bytes_have_no_effect_and_the_datagram_goes_on() {
    let delete = || Datagram::new(0, 0).delete(WRITER);
    let short = delete().submessages()[..5].to_vec();
    let cases = [
        vec![],
        vec![0x02],
        short,
        [delete().submessages(), vec![9]].concat(),
        delete().submessage(0x03, &[]).submessages(),
        delete().submessage(0x10, &[0; 8]).submessages(),
        delete().create(9, 7, 0, &[]).submessages(),
        delete().status(9, 5).submessages(),
        delete().submessage(0x02, &[1]).submessages(),
        // 17: a FRAGMENT or CREATE_CLIENT among them.
        delete().fragment(0, 1, &delete().submessages()).submessages(),
        delete().create_client([1; 4]).submessages(),
        Datagram::new(0, 0).create_client([1; 4]).submessages(),
    ];
    for bytes in cases {
        let mut fixture = Fixture::with_objects();
        let before = fixture.tables.clone();
        let datagram = Datagram::new(1, 0).fragment(0, 1, &bytes).delete(NOTHING).bytes();
        assert_eq!(fixture.datagram(&datagram), 0, "{bytes:02x?}");
        assert_eq!((fixture.record.call, fixture.replied()), (0, &unknown(NOTHING)[..]), "{bytes:02x?}");
        assert!(fixture.tables.objects == before.objects && fixture.tables.sessions == before.sessions, "{bytes:02x?}");
        // Behind two parts as well.
        let (a, b) = bytes.split_at(bytes.len() / 2);
        let datagram = Datagram::new(1, 0).fragment(1, 2, b).fragment(0, 2, a).delete(NOTHING).bytes();
        assert_eq!((fixture.datagram(&datagram), fixture.replied()), (0, &unknown(NOTHING)[..]), "{bytes:02x?}");
        assert_eq!(store(&fixture, 1), (0, 0));
    }
}

#[test]
fn a_fragment_that_does_not_read_refuses_its_datagram() {
    let mut fixture = Fixture::with_objects();
    for len in 0..4 {
        let datagram = Datagram::new(1, 0).delete(WRITER).submessage(0x0F, &[0, 0, 1, 0][..len]).bytes();
        assert_eq!(fixture.datagram(&datagram), 5, "{len} bytes");
    }
    let cut = Datagram::new(1, 0).fragment(0, 1, b"abc").bytes();
    assert_eq!(fixture.datagram(&cut[..cut.len() - 1]), 1);
}

// The room for a datagram and for each answer, one byte at a time: all but the last are refused as 13 and change nothing.
fn needs(fixture: &mut Fixture, room: usize, call: impl Fn(&mut Fixture) -> u64) {
    for short in [0, room.saturating_sub(12), room.saturating_sub(1)] {
        if short < room {
            fixture.out.resize(short, FILL);
            assert_eq!(call(fixture), 13, "room {short} of {room}");
        }
    }
    fixture.out.resize(room, FILL);
    assert_eq!(call(fixture), 0, "room {room}");
    assert_eq!(fixture.record.wrote as usize, room);
}

#[test]
fn the_room_for_rebuilt_submessages_is_exact() {
    let mut fixture = Fixture::with_objects();
    let message =
        all(|datagram| datagram.delete(90).write_data(WRITER, b"a").heartbeat(0, 0).read_data(READER).delete(91));
    let (a, b) = message.split_at(9);
    assert_eq!(fragment(&mut fixture, 1, 1, 2, b), 0);
    let last = Datagram::new(1, 6).fragment(0, 2, a).fragment(1, 3, b"next").heartbeat(0, 0).bytes();
    let opening = last.clone();
    needs(&mut fixture, 11, |fixture| fixture.datagram(&opening));
    assert_eq!(fixture.record.call, WRITE_DATA);
    fixture.kept = last.clone();
    needs(&mut fixture, 11 + 12, |fixture| fixture.answer(DONE, 0, &[]));
    assert_eq!(fixture.record.call, READ_DATA);
    fixture.kept = last;
    needs(&mut fixture, 10 + 3 + 11 + 12, |fixture| fixture.answer(SAMPLE, 0, b"xyz"));
    assert_eq!((fixture.record.call, store(&fixture, 1)), (0, (3, 1)));
    // On a stream other than 0 what was read is held, and a rebuilt ACKNACK asks for it.
    let again = all(|datagram| datagram.acknack(0, 1).acknack(0, 3));
    let data = Datagram::new(1, 6).data(READER, b"xyz").bytes();
    let datagram = Datagram::new(1, 6).fragment(0, 1, &again).bytes();
    needs(&mut fixture, 26, |fixture| fixture.datagram(&datagram));
    assert_eq!(fixture.replied(), [&data[..], &data].concat());
}

#[test]
fn the_room_is_exact_where_the_datagram_opens_its_own_session() {
    let mut fixture = Fixture::with_objects();
    fixture.opens();
    assert_eq!(fragment(&mut fixture, 1, 0, 3, b"of session 1"), 0);
    assert_eq!(fragment(&mut fixture, 2, 2, 3, b"of session 2"), 0);
    let message = all(|datagram| datagram.delete(90).delete(91));
    let (a, b) = message.split_at(7);
    // The first part finds no session 3 yet. The store that the new session has may hold anything.
    fixture.tables.parts[2 * PARTS..].fill(FILL);
    fixture.tables.lengths[2 * LENGTHS..].fill(17);
    let opening = Datagram::new(3, 0).fragment(0, 2, a).create_client([3; 4]).fragment(1, 2, b).fragment(0, 2, a);
    let datagram = opening.fragment(5, 6, b"rest").bytes();
    needs(&mut fixture, 33, |fixture| fixture.datagram(&datagram));
    assert_eq!((fixture.tables.sessions[3][SLOT], store(&fixture, 3)), (2, (6, 1)));
    assert_eq!((store(&fixture, 1), store(&fixture, 2)), ((3, 1), (3, 1)));
}

#[test]
fn fragments_of_sessions_never_mix() {
    let mut fixture = Fixture::with_objects();
    (0..2).for_each(|_| fixture.opens());
    let message = |id: u8| all(|datagram| datagram.delete(u16::from(id)).delete(100 + u16::from(id)));
    for (number, from, to) in [(2, 8, 12), (0, 0, 3)] {
        for id in [2, 1, 3] {
            assert_eq!(fragment(&mut fixture, id, number, 3, &message(id)[from..to]), 0);
        }
    }
    for id in [3, 1, 2] {
        assert_eq!(fragment(&mut fixture, id, 1, 3, &message(id)[3..8]), 0);
        // Session 1 has an object 1, on which another depends.
        let first = if id == 1 { ERR_INCOMPATIBLE } else { ERR_UNKNOWN_REF };
        let number = u16::from(id);
        let replies = [status(id, number, first), status(id, 100 + number, ERR_UNKNOWN_REF)];
        assert_eq!(fixture.replied(), replies.concat());
    }
}

#[test]
fn a_session_in_the_slot_of_another_begins_with_no_fragment() {
    for sweeps in [false, true] {
        let mut fixture = Fixture::with_objects();
        let message = all(|datagram| datagram.delete(NOTHING));
        assert_eq!(fragment(&mut fixture, 1, 0, 2, &message[..3]), 0);
        if sweeps {
            assert_eq!(fixture.sweep(WHOLE, 255, 5000), 65_536);
        } else {
            assert_eq!(fixture.remove(WHOLE, 1), 65_536);
        }
        assert_eq!(store(&fixture, 1), (0, 0));
        fixture.opens();
        assert_eq!((fixture.tables.sessions[2][SLOT], store(&fixture, 2)), (0, (0, 0)));
        assert_eq!(fragment(&mut fixture, 2, 1, 2, &message[3..]), 0);
        assert_eq!((fixture.record.wrote, store(&fixture, 2)), (0, (2, 1)));
        assert_eq!(fragment(&mut fixture, 2, 0, 2, &message[..3]), 0);
        assert_eq!(fixture.replied(), status(2, NOTHING, ERR_UNKNOWN_REF));
    }
}

#[test]
fn a_session_keeps_to_its_part_of_the_store() {
    let mut fixture = Fixture::with_objects();
    (0..2).for_each(|_| fixture.opens());
    fixture.tables.parts.fill(FILL);
    fixture.tables.lengths.fill(7);
    for number in 0..63 {
        assert_eq!(fragment(&mut fixture, 2, number, 64, &[0; 512]), 0);
    }
    let (bytes, lengths) = (PARTS..2 * PARTS - 512, LENGTHS..2 * LENGTHS - 1);
    assert!(fixture.tables.parts.iter().enumerate().all(|(at, byte)| bytes.contains(&at) == (*byte != FILL)));
    assert!(fixture.tables.lengths[lengths.clone()].iter().all(|length| *length == 513));
    assert_eq!(fixture.tables.lengths[2 * LENGTHS - 1], 0);
    assert!(fixture.tables.lengths[..LENGTHS].iter().chain(&fixture.tables.lengths[2 * LENGTHS..]).all(|n| *n == 7));
}

#[test]
fn a_fragment_opens_no_stream() {
    let mut fixture = Fixture::with_objects();
    let message = all(|datagram| datagram.heartbeat(0, 1));
    assert_eq!(fixture.datagram(&Datagram::new(1, 200).fragment(0, 2, &message).bytes()), 0);
    assert_eq!(fixture.tables.sessions[1][4], 1);
    // The rebuilt HEARTBEAT does, on the stream of the last part.
    assert_eq!(fixture.datagram(&Datagram::new(1, 201).fragment(1, 2, b"").bytes()), 0);
    assert_eq!(fixture.tables.sessions[1][4], 2);
    assert_eq!(fixture.replied(), Datagram::new(1, 201).acknack(0, 3).bytes());
    for stream in 1..=6 {
        assert_eq!(fixture.datagram(&Datagram::new(1, stream).heartbeat(0, 0).bytes()), 0);
    }
    // A ninth stream: the FRAGMENT is taken, and the rebuilt HEARTBEAT gets no reply.
    let datagram = Datagram::new(1, 77).fragment(0, 1, &message).delete(NOTHING).bytes();
    assert_eq!(fixture.datagram(&datagram), 0);
    assert_eq!(fixture.replied(), Datagram::new(1, 77).status(NOTHING, ERR_UNKNOWN_REF).bytes());
    assert_eq!(fixture.tables.sessions[1][4], 8);
}

#[test]
fn a_full_stream_is_full_for_rebuilt_reads_too() {
    let mut fixture = Fixture::with_objects();
    for _ in 0..16 {
        assert_eq!(fixture.datagram(&Datagram::new(1, 3).read_data(READER).bytes()), 0);
        assert_eq!(fixture.answer(SAMPLE, 0, b"s"), 0);
    }
    let message = all(|datagram| datagram.read_data(READER).acknack(1, 0).read_data(READER));
    assert_eq!(fixture.datagram(&Datagram::new(1, 3).fragment(0, 1, &message).bytes()), 0);
    assert_eq!(fixture.replied(), Datagram::new(1, 3).status(READER, ERR_RESOURCES).bytes());
    assert_eq!(fixture.record.call, READ_DATA);
    assert_eq!(fixture.answer(SAMPLE, 0, &[5; 1015]), 14);
    assert_eq!(fixture.answer(SAMPLE, 0, b"t"), 0);
    assert_eq!(fixture.replied(), Datagram::numbered(1, 3, 16).data(READER, b"t").bytes());
}
