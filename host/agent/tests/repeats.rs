//! Repeats (document 02, W5): DATA on a stream other than 0 is numbered and held, and an ACKNACK gets what it lists, byte for byte.

mod common;

use common::*;
use wire::{Datagram, ERR_INVALID_DATA, ERR_RESOURCES, ERR_UNKNOWN_REF, OK, PUBLISHER};
use xrce_agent::lent::HELD;

const READER: u16 = 4;
/// The stream on which most tests read.
const STREAM: u8 = 7;

// READ_DATA that hands out a call, and the bridge's sample; the reply.
fn reads(fixture: &mut Fixture, session: u8, stream: u8, sample: &[u8]) -> Vec<u8> {
    assert_eq!(fixture.datagram(&Datagram::new(session, stream).read_data(READER).bytes()), 0);
    assert_eq!((fixture.record.call, fixture.record.handle, fixture.record.wrote), (READ_DATA, 14, 0));
    fixture.out.resize(fixture.out.len().max(10 + sample.len()), FILL);
    assert_eq!(fixture.answer(SAMPLE, 0, sample), 0);
    fixture.replied().to_vec()
}

// The DATA of a sample under its number.
fn data(session: u8, stream: u8, sequence: u16, sample: &[u8]) -> Vec<u8> {
    Datagram::numbered(session, stream, sequence).data(READER, sample).bytes()
}

fn status_on(session: u8, stream: u8, object: u16, code: u8) -> Vec<u8> {
    Datagram::new(session, stream).status(object, code).bytes()
}

// What an ACKNACK is answered by: no call, and these bytes.
fn asks(fixture: &mut Fixture, session: u8, stream: u8, first: u16, bitmap: u16) -> Vec<u8> {
    fixture.out.resize(fixture.out.len().max(16 * 1024), FILL);
    assert_eq!(fixture.datagram(&Datagram::new(session, stream).acknack(first, bitmap).bytes()), 0);
    assert_eq!(fixture.record.call, 0);
    fixture.replied().to_vec()
}

// Session 1 with messages 0, 1, 2.. held on the stream, each of another length.
fn holding(count: u16) -> (Fixture, Vec<Vec<u8>>) {
    let mut fixture = Fixture::with_objects();
    let all = (0..count).map(|number| reads(&mut fixture, 1, STREAM, &vec![number as u8; 3 * usize::from(number)]));
    let all = all.collect();
    (fixture, all)
}

#[test]
fn each_stream_numbers_its_own_data() {
    let mut fixture = Fixture::with_objects();
    for sequence in 0..4 {
        for stream in [1, 128, 255] {
            let sample = [stream, sequence as u8];
            assert_eq!(reads(&mut fixture, 1, stream, &sample), data(1, stream, sequence, &sample));
        }
        assert_eq!(reads(&mut fixture, 1, 0, b"s"), data(1, 0, 0, b"s"));
    }
}

#[test]
fn other_replies_have_number_0_and_take_none() {
    let (mut fixture, _) = holding(3);
    for (input, code) in [(NO_SAMPLE, OK), (FAILED, ERR_INVALID_DATA)] {
        assert_eq!(fixture.datagram(&Datagram::new(1, STREAM).read_data(READER).bytes()), 0);
        assert_eq!(fixture.answer(input, 0, &[]), 0);
        assert_eq!(fixture.replied(), status_on(1, STREAM, READER, code));
    }
    assert_eq!(fixture.datagram(&Datagram::new(1, STREAM).heartbeat(0, 2).delete(99).bytes()), 0);
    let acknack = Datagram::new(1, STREAM).acknack(0, 7).bytes();
    assert_eq!(fixture.replied(), [acknack, status_on(1, STREAM, 99, ERR_UNKNOWN_REF)].concat());
    assert_eq!(reads(&mut fixture, 1, STREAM, b"s"), data(1, STREAM, 3, b"s"));
}

#[test]
fn what_is_listed_comes_byte_for_byte_and_in_bit_order() {
    let (mut fixture, all) = holding(5);
    assert_eq!(asks(&mut fixture, 1, STREAM, 0, 0b1_0110), [&all[1][..], &all[2], &all[4]].concat());
    // It stays held, and comes again as often as it is asked for.
    assert_eq!(asks(&mut fixture, 1, STREAM, 0, 0xFFFF), all.concat());
    assert_eq!(asks(&mut fixture, 1, STREAM, 65_535, 0b111), [&all[0][..], &all[1]].concat());
    assert_eq!(asks(&mut fixture, 1, STREAM, 0, 0), []);
    // What is before the first number is acknowledged, and then asked for in vain.
    assert_eq!(asks(&mut fixture, 1, STREAM, 2, 0b101), [&all[2][..], &all[4]].concat());
    assert_eq!(asks(&mut fixture, 1, STREAM, 0, 0xFFFF), all[2..].concat());
    assert_eq!(asks(&mut fixture, 1, STREAM, 5, 0xFFFF), []);
    assert_eq!(asks(&mut fixture, 1, STREAM, 0, 0xFFFF), []);
    assert_eq!(reads(&mut fixture, 1, STREAM, b"s"), data(1, STREAM, 5, b"s"));
}

#[test]
fn after_65535_comes_0() {
    let (mut fixture, _) = holding(1);
    assert_eq!(asks(&mut fixture, 1, STREAM, 1, 0), []);
    // Rows 8 to 15 are session 1's, and the second number of a row is the next to send.
    fixture.tables.streams[9][1] = 65_534;
    let numbers = [65_534, 65_535, 0, 1];
    let all = numbers.map(|number| reads(&mut fixture, 1, STREAM, &[number as u8]));
    assert_eq!(all, numbers.map(|number| data(1, STREAM, number, &[number as u8])));
    assert_eq!(asks(&mut fixture, 1, STREAM, 65_535, 0b101), [&all[1][..], &all[3]].concat());
    assert_eq!(asks(&mut fixture, 1, STREAM, 65_534, 0xFFFF), all[1..].concat());
    assert_eq!(asks(&mut fixture, 1, STREAM, 0, 0xFFFF), all[2..].concat());
}

#[test]
fn with_16_held_nothing_is_read() {
    let (mut fixture, all) = holding(16);
    let full = |fixture: &mut Fixture| {
        assert_eq!(fixture.datagram(&Datagram::new(1, STREAM).read_data(READER).bytes()), 0);
        assert_eq!((fixture.record.open, fixture.record.call), (0, 0));
        assert_eq!(fixture.replied(), status_on(1, STREAM, READER, ERR_RESOURCES));
    };
    full(&mut fixture);
    // Not even if the next number is one of them.
    let mut altered = fixture.clone();
    altered.tables.streams[9][1] = 3;
    full(&mut altered);
    assert_eq!(asks(&mut fixture, 1, STREAM, 0, 0xFFFF), all.concat());
    full(&mut fixture);
    // An unknown reader comes first, and other streams have places of their own.
    assert_eq!(fixture.datagram(&Datagram::new(1, STREAM).read_data(99).bytes()), 0);
    assert_eq!(fixture.replied(), status_on(1, STREAM, 99, ERR_UNKNOWN_REF));
    assert_eq!(reads(&mut fixture, 1, 0, b"s"), data(1, 0, 0, b"s"));
    assert_eq!(reads(&mut fixture, 1, 8, b"s"), data(1, 8, 0, b"s"));
    assert_eq!(asks(&mut fixture, 1, STREAM, 1, 1), all[1]);
    let last = reads(&mut fixture, 1, STREAM, b"s");
    assert_eq!(last, data(1, STREAM, 16, b"s"));
    full(&mut fixture);
    assert_eq!(asks(&mut fixture, 1, STREAM, 1, 0xFFFF), [all[1..].concat(), last].concat());
}

#[test]
fn a_ninth_stream_gets_no_reply_and_no_call() {
    let mut fixture = Fixture::with_objects();
    for stream in 1..=7 {
        assert_eq!(reads(&mut fixture, 1, stream, &[stream]), data(1, stream, 0, &[stream]));
    }
    for stream in [8, 128, 255] {
        assert_eq!(fixture.datagram(&Datagram::new(1, stream).read_data(READER).acknack(0, 0xFFFF).bytes()), 0);
        assert_eq!((fixture.record.open, fixture.record.call, fixture.record.wrote), (0, 0, 0), "stream {stream}");
        assert_eq!(fixture.tables.sessions[1][4], 8);
        // An unknown reader is answered all the same.
        assert_eq!(fixture.datagram(&Datagram::new(1, stream).read_data(99).bytes()), 0);
        assert_eq!(fixture.replied(), status_on(1, stream, 99, ERR_UNKNOWN_REF));
    }
    for stream in 1..=7 {
        assert_eq!(asks(&mut fixture, 1, stream, 0, 1), data(1, stream, 0, &[stream]));
    }
}

#[test]
fn an_unknown_reader_opens_no_stream_and_a_known_one_does() {
    let mut fixture = Fixture::with_objects();
    assert_eq!(fixture.datagram(&Datagram::new(1, 0).create(6, PUBLISHER, 0, &[]).bytes()), 0);
    for reader in [99, 6] {
        assert_eq!(fixture.datagram(&Datagram::new(1, STREAM).read_data(reader).bytes()), 0);
        assert_eq!((fixture.record.call, fixture.tables.sessions[1][4]), (0, 1), "reader {reader}");
        assert_eq!(fixture.replied(), status_on(1, STREAM, reader, ERR_UNKNOWN_REF));
    }
    // It stays open whatever the bridge answers.
    for (stream, input) in [(1, NO_SAMPLE), (2, FAILED)] {
        assert_eq!(fixture.datagram(&Datagram::new(1, stream).read_data(READER).bytes()), 0);
        assert_eq!(fixture.answer(input, 0, &[]), 0);
        assert_eq!(fixture.tables.sessions[1][4], 1 + u64::from(stream));
    }
}

#[test]
fn what_is_held_has_at_most_1024_bytes() {
    let mut fixture = Fixture::with_objects();
    fixture.out = vec![FILL; 70_000];
    assert_eq!(fixture.datagram(&Datagram::new(1, STREAM).read_data(READER).bytes()), 0);
    // 12 comes before 14; either leaves the call open.
    for (len, refused) in [(1015, 14), (65_533, 14), (65_534, 12), (70_000, 12), (1015, 14)] {
        assert_eq!(fixture.answer(SAMPLE, 0, &vec![5; len]), refused, "{len} bytes");
        assert_eq!((fixture.record.open, fixture.record.call), (3, READ_DATA), "{len} bytes");
    }
    assert_eq!(fixture.answer(SAMPLE, 0, &[5; 1014]), 0);
    let longest = data(1, STREAM, 0, &[5; 1014]);
    assert_eq!((fixture.replied(), longest.len()), (&longest[..], 1024));
    assert_eq!(asks(&mut fixture, 1, STREAM, 0, 1), longest);
    // On stream 0 nothing is held.
    assert_eq!(reads(&mut fixture, 1, 0, &[5; 1015]), data(1, 0, 0, &[5; 1015]));
    assert_eq!(asks(&mut fixture, 1, 0, 0, 0xFFFF), []);
}

#[test]
fn a_short_output_comes_last() {
    let mut fixture = Fixture::with_objects();
    fixture.out.clear();
    assert_eq!(fixture.datagram(&Datagram::new(1, STREAM).read_data(READER).bytes()), 0);
    assert_eq!(fixture.answer(SAMPLE, 0, &vec![5; 65_534]), 12);
    assert_eq!(fixture.answer(SAMPLE, 0, &[5; 1015]), 14);
    for room in [0, 11, 1023] {
        fixture.out.resize(room, FILL);
        assert_eq!(fixture.answer(SAMPLE, 0, &[5; 1014]), 13, "room {room}");
    }
    fixture.out.resize(1024, FILL);
    assert_eq!(fixture.answer(SAMPLE, 0, &[5; 1014]), 0);
    assert_eq!(fixture.replied(), data(1, STREAM, 0, &[5; 1014]));
}

#[test]
fn the_room_for_repeats_is_exact() {
    for (first, bitmap, from) in [(0, 0xFFFF, 0), (1, 0xFFFF, 1), (3, 0b10, 4)] {
        let (mut fixture, all) = holding(5);
        let (datagram, wanted) = (Datagram::new(1, STREAM).acknack(first, bitmap).bytes(), all[from..].concat());
        for room in [0, wanted.len() - 1] {
            fixture.out.resize(room, FILL);
            assert_eq!(fixture.datagram(&datagram), 13, "room {room}");
        }
        // Refused, it has acknowledged nothing.
        let mut other = fixture.clone();
        assert_eq!(asks(&mut other, 1, STREAM, 0, 0xFFFF), all.concat());
        fixture.out.resize(wanted.len(), FILL);
        assert_eq!((fixture.datagram(&datagram), fixture.replied()), (0, &wanted[..]));
        assert_eq!(asks(&mut fixture, 1, STREAM, 0, 0xFFFF), all[usize::from(first)..].concat());
    }
}

// A message is held before the next submessage is handled, so its own datagram can ask for it.
#[test]
fn a_datagram_may_ask_for_what_it_has_just_read() {
    let (mut fixture, all) = holding(2);
    let datagram = Datagram::new(1, STREAM).read_data(READER).acknack(1, 0b11).delete(99).bytes();
    assert_eq!((fixture.datagram(&datagram), fixture.record.call), (0, READ_DATA));
    let fresh = data(1, STREAM, 2, b"fresh");
    let wanted = [fresh.clone(), all[1].clone(), fresh, status_on(1, STREAM, 99, ERR_UNKNOWN_REF)].concat();
    fixture.out.resize(wanted.len() - 1, FILL);
    assert_eq!(fixture.answer(SAMPLE, 0, b"fresh"), 13);
    fixture.out.resize(wanted.len(), FILL);
    assert_eq!(fixture.answer(SAMPLE, 0, b"fresh"), 0);
    assert_eq!(fixture.replied(), wanted);
}

#[test]
fn a_session_in_the_slot_of_another_sees_none_of_its_messages() {
    for sweeps in [false, true] {
        let (mut fixture, _) = holding(16);
        let held = fixture.tables.held.clone();
        if sweeps {
            assert_eq!(fixture.sweep(WHOLE, 255, 5000), 65_536);
        } else {
            assert_eq!(fixture.remove(WHOLE, 1), 65_536);
        }
        fixture.opens();
        fixture.fills(2);
        let [old, new] = [1, 2].map(|id| (fixture.tables.sessions[id][0], fixture.tables.sessions[id][5]));
        assert_eq!((old, new), ((0, 0), (1, 0)));
        assert!(fixture.tables.held == held, "an opening wrote to the store");
        assert_eq!(asks(&mut fixture, 2, STREAM, 0, 0xFFFF), []);
        assert_eq!(asks(&mut fixture, 1, STREAM, 0, 0xFFFF), []);
        let own = reads(&mut fixture, 2, STREAM, b"own");
        assert_eq!(own, data(2, STREAM, 0, b"own"));
        assert_eq!(asks(&mut fixture, 2, STREAM, 0, 0xFFFF), own);
    }
}

#[test]
fn messages_of_sessions_and_streams_never_mix() {
    let mut fixture = Fixture::with_objects();
    for id in 2..=3 {
        fixture.opens();
        fixture.fills(id);
    }
    let sample = |id: u8, stream: u8, number: u16| vec![id, stream, number as u8, 0x77];
    for number in 0..5 {
        for (id, stream) in [(1, 1), (3, 1), (2, 1), (2, 9), (1, 9), (3, 255)] {
            let wanted = data(id, stream, number, &sample(id, stream, number));
            assert_eq!(reads(&mut fixture, id, stream, &sample(id, stream, number)), wanted);
        }
    }
    // An acknowledgement is its own session's and stream's alone.
    assert_eq!(asks(&mut fixture, 2, 1, 5, 0), []);
    for (id, stream, from) in [(1, 1, 0), (1, 9, 0), (2, 1, 5), (2, 9, 0), (3, 1, 0), (3, 255, 0)] {
        let wanted: Vec<Vec<u8>> = (from..5).map(|n| data(id, stream, n, &sample(id, stream, n))).collect();
        assert_eq!(asks(&mut fixture, id, stream, 0, 0xFFFF), wanted.concat(), "session {id}, stream {stream}");
    }
}

#[test]
fn a_session_takes_the_lowest_free_slot_and_keeps_to_its_part_of_the_store() {
    let mut fixture = Fixture::new();
    (0..3).for_each(|_| fixture.opens());
    let slots = |fixture: &Fixture| [1, 2, 3, 4].map(|id| fixture.tables.sessions[id][5]);
    assert_eq!(slots(&fixture), [0, 1, 2, 0]);
    assert_eq!(fixture.remove(WHOLE, 2), 65_536);
    fixture.opens();
    assert_eq!(slots(&fixture), [0, 0, 2, 1]);
    fixture.fills(4);
    fixture.tables.held.fill(FILL);
    for stream in 1..=7 {
        for number in 0..16 {
            assert_eq!(reads(&mut fixture, 4, stream, &[0; 1014]), data(4, stream, number, &[0; 1014]));
        }
    }
    let own = HELD..2 * HELD;
    // 112 messages of 1,024 bytes fill the part whole, and no byte of them is the pattern's.
    let mut bytes = fixture.tables.held.iter().enumerate();
    assert!(bytes.all(|(at, byte)| own.contains(&at) == (*byte != FILL)));
}

#[test]
fn an_altered_slot() {
    for slot in [CLIENTS, CLIENTS + 1, 255, u64::MAX] {
        let (mut fixture, all) = holding(2);
        fixture.opens();
        assert_eq!(fixture.datagram(&Datagram::new(1, STREAM).read_data(READER).bytes()), 0);
        fixture.tables.sessions[1][5] = slot;
        assert_eq!(fixture.answer(SAMPLE, 0, b"s"), 16, "slot {slot}");
        fixture.tables.sessions[1][5] = 0;
        assert_eq!(fixture.answer(SAMPLE, 0, b"s"), 0);
        fixture.tables.sessions[1][5] = slot;
        for stream in [0, STREAM, 99] {
            assert_eq!(fixture.datagram(&Datagram::new(1, stream).delete(99).bytes()), 16, "slot {slot}");
        }
        // 16 comes before 1 to 5; another session is not looked at.
        assert_eq!(fixture.datagram(&[1, 0, 0, 0]), 16, "slot {slot}");
        assert_eq!(fixture.datagram(&Datagram::new(2, 0).delete(99).bytes()), 0);
        fixture.tables.sessions[1][5] = 0;
        assert_eq!(asks(&mut fixture, 1, STREAM, 0, 0b11), all.concat());
    }
}

#[test]
fn an_altered_length() {
    for place in 19..35 {
        for length in [1026, 65_535] {
            let (mut fixture, _) = holding(16);
            assert_eq!(asks(&mut fixture, 1, 8, 0, 0), []);
            fixture.tables.streams[9][place] = length;
            for datagram in [
                Datagram::new(1, STREAM).acknack(0, 0),
                Datagram::new(1, STREAM).read_data(READER),
                Datagram::new(1, STREAM).delete(99),
            ] {
                assert_eq!(fixture.datagram(&datagram.bytes()), 16, "length {length} at {place}");
            }
            // The row of the named stream is looked at, and no other.
            for stream in [0, 8, 9] {
                assert_eq!(fixture.datagram(&Datagram::new(1, stream).delete(99).bytes()), 0);
            }
            // One more than the 1,024 bytes that a message may have; its number stands 16 before.
            fixture.tables.streams[9][place] = 1025;
            let number = fixture.tables.streams[9][place - 16];
            assert_eq!(asks(&mut fixture, 1, STREAM, 0, 1 << number).len(), 1024);
        }
    }
}

#[test]
fn a_length_that_is_altered_while_a_call_is_open() {
    let (mut fixture, all) = holding(2);
    assert_eq!(fixture.datagram(&Datagram::new(1, STREAM).read_data(READER).bytes()), 0);
    let length = std::mem::replace(&mut fixture.tables.streams[9][20], 1026);
    assert_eq!(fixture.answer(SAMPLE, 0, b"s"), 16);
    assert_eq!(fixture.answer(DONE, 0, &[]), 15);
    fixture.tables.streams[9][20] = length;
    assert_eq!(fixture.answer(SAMPLE, 0, b"s"), 0);
    assert_eq!(asks(&mut fixture, 1, STREAM, 0, 0b111), [all.concat(), data(1, STREAM, 2, b"s")].concat());
}

#[test]
fn a_store_that_is_too_short() {
    let (mut fixture, all) = holding(3);
    let datagram = Datagram::new(1, STREAM).acknack(0, 0b111).bytes();
    for held in [0, 1, HELD, WHOLE.held - 1] {
        let told = xrce_agent::lent::Told { datagram: &datagram, ..Default::default() };
        assert_eq!(fixture.process(Short { held, ..WHOLE }, told), 16, "{held} bytes");
    }
    assert_eq!(asks(&mut fixture, 1, STREAM, 0, 0b111), all.concat());
}
