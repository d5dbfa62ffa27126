//! A Topic's strings are text (document 02, W7): whole, and UTF-8 as RFC 3629 allows it. The fixture checks each time that a
//! refused call changed no byte.

mod common;

use common::*;
use wire::{
    in_parts, strings, Datagram, DATA_READER, ERR_INCOMPATIBLE, ERR_INVALID_DATA, ERR_RESOURCES, ERR_UNKNOWN_REF, OK,
    PARTICIPANT, PUBLISHER, TOPIC,
};
use xrce_agent::lent::{AgentRecord, ObjectRecord, Tables, Told};
use xrce_agent::{Agent, Answer, Call, Given, Handle, ALL_WEEK};

/// The number of the Topics that are made here, and one that names no object.
const MADE: u16 = 9;
const NOTHING: u16 = 99;

/// The first and the last of each row of RFC 3629's table, and some that it doesn't single out.
const TEXTS: [&[u8]; 21] = [
    b"\x00",
    b"\x7F",
    b"\xC2\x80",
    b"\xDF\xBF",
    b"\xE0\xA0\x80",
    b"\xE0\xBF\xBF",
    b"\xE1\x80\x80",
    b"\xEC\xBF\xBF",
    b"\xED\x80\x80",
    b"\xED\x9F\xBF",
    b"\xEE\x80\x80",
    b"\xEF\xBF\xBF",
    b"\xF0\x90\x80\x80",
    b"\xF0\xBF\xBF\xBF",
    b"\xF1\x80\x80\x80",
    b"\xF3\xBF\xBF\xBF",
    b"\xF4\x80\x80\x80",
    b"\xF4\x8F\xBF\xBF",
    // U+FEFF, two noncharacters, no character at all.
    b"\xEF\xBB\xBF",
    b"\xEF\xB7\x90\xEF\xBF\xBE",
    b"",
];

const ILL_FORMED: [&[u8]; 24] = [
    // Overlong: U+0000, U+007F, U+07FF and U+FFFF in a byte more than they need.
    b"\xC0\x80",
    b"\xC1\xBF",
    b"\xE0\x80\x80",
    b"\xE0\x9F\xBF",
    b"\xF0\x80\x80\x80",
    b"\xF0\x8F\xBF\xBF",
    // Surrogates, alone and as the pair that stands for U+10000 elsewhere.
    b"\xED\xA0\x80",
    b"\xED\xBF\xBF",
    b"\xED\xA0\x80\xED\xB0\x80",
    // Above U+10FFFF, and bytes that begin nothing.
    b"\xF4\x90\x80\x80",
    b"\xF5\x80\x80\x80",
    b"\xF8\x88\x80\x80\x80",
    b"\xFE",
    b"\xFF",
    // A tail without its first byte, a first byte without its tail, and one tail too many.
    b"\x80",
    b"\xBF",
    b"\xC2",
    b"\xE1\x80",
    b"\xF1\x80\x80",
    b"\xC3\xA9\xA9",
    // A character that another begins in.
    b"\xE1\x80\xC3\xA9",
    b"\xF0\x90\x80A",
    // Latin-1.
    b"K\xFCche",
    b"caf\xE9",
];

fn create(name: &[u8], type_name: &[u8]) -> Datagram {
    Datagram::new(1, 0).create(MADE, TOPIC, 1, &strings(name, type_name))
}

/// Name and type that the open call shows.
fn shown(fixture: &Fixture) -> (&[u8], &[u8]) {
    let AgentRecord { start, len, type_start, type_len, left_end, .. } = fixture.record;
    let bytes = if left_end == 0 { &fixture.kept[..] } else { &fixture.tables.rebuilt[..] };
    let part = |start: u64, len: u64| &bytes[start as usize..][..len as usize];
    (part(start, len), part(type_start, type_len))
}

/// The bytes before, between and behind letters.
fn places(bytes: &[u8]) -> [Vec<u8>; 4] {
    [bytes.to_vec(), [b"a", bytes].concat(), [bytes, b"z"].concat(), [b"\xC3\xA9", bytes, b"\xE2\x82\xAC"].concat()]
}

/// At 900 ms: answered by that code, without a call, and nothing is changed but the session's last activity.
fn answers(fixture: &mut Fixture, datagram: Datagram, object: u16, code: u8) {
    let bytes = datagram.bytes();
    let mut before = fixture.tables.clone();
    assert_eq!(fixture.process(WHOLE, Told { datagram: &bytes, given: Given::at(900), ..Told::default() }), 0);
    assert_eq!(fixture.replied(), status(1, object, code), "{bytes:02x?}");
    assert_eq!((fixture.record.open, fixture.record.call), (0, 0), "{bytes:02x?}");
    before.sessions[1][2] = 900;
    assert!(fixture.tables == before, "{bytes:02x?}");
}

/// A call with these names, which the bridge answers by a handle.
fn calls(fixture: &mut Fixture, datagram: Datagram, name: &[u8], type_name: &[u8]) {
    let bytes = datagram.bytes();
    assert_eq!(fixture.datagram(&bytes), 0);
    assert_eq!((fixture.record.call, fixture.record.handle), (CREATE_TOPIC, 11), "{bytes:02x?}");
    assert_eq!(shown(fixture), (name, type_name));
    assert_eq!(fixture.answer(CREATED, 90, &[]), 0);
    assert_eq!(fixture.replied(), status(1, MADE, OK));
    let made = ObjectRecord { number: MADE, kind: TOPIC, bridged: 1, handle: 90, parent: 1 };
    assert!(fixture.tables.objects[32..64].contains(&made));
}

#[test]
fn text_reaches_the_bridge_byte_for_byte() {
    let mut fixture = Fixture::with_objects();
    for text in TEXTS {
        calls(&mut fixture, create(text, b"t"), text, b"t");
        calls(&mut fixture, create(b"n", text), b"n", text);
        for text in places(text) {
            calls(&mut fixture, create(&text, &text), &text, &text);
        }
    }
    let all = TEXTS.concat();
    calls(&mut fixture, create(&all, &all), &all, &all);
    let long = "ä€𐍈z".repeat(500).into_bytes();
    calls(&mut fixture, create(&long, &all), &long, &all);
}

#[test]
fn ill_formed_strings_are_answered_without_a_call() {
    let mut fixture = Fixture::with_objects();
    for bytes in ILL_FORMED {
        for bytes in places(bytes) {
            answers(&mut fixture, create(&bytes, b"t"), MADE, ERR_INVALID_DATA);
            answers(&mut fixture, create(b"n", &bytes), MADE, ERR_INVALID_DATA);
            answers(&mut fixture, create(&bytes, &bytes), MADE, ERR_INVALID_DATA);
        }
    }
    // Each string is text of its own: no character goes over from the name to the type.
    answers(&mut fixture, create(b"caf\xC3", b"\xA9"), MADE, ERR_INVALID_DATA);
}

#[test]
fn strings_that_are_cut_short() {
    let mut fixture = Fixture::with_objects();
    let whole = strings("Küche".as_bytes(), "Wärme".as_bytes());
    let topic = |strings: &[u8]| Datagram::new(1, 0).create(MADE, TOPIC, 1, strings);
    for end in 0..whole.len() {
        answers(&mut fixture, topic(&whole[..end]), MADE, ERR_INVALID_DATA);
    }
    // What comes next in the datagram isn't of the strings, however well it would fit.
    answers(&mut fixture, topic(&[0xFF, 0xFF, b'n']), MADE, ERR_INVALID_DATA);
    answers(&mut fixture, topic(&[1, 0, b'n', 1, 0]).status(0, 0), MADE, ERR_INVALID_DATA);
    // Behind the two strings there may be anything.
    for rest in [&b"z"[..], b"\x05\x00", b"\xFF\xFF\xC0\x80"] {
        let strings = [&whole, rest].concat();
        calls(&mut fixture, topic(&strings), "Küche".as_bytes(), "Wärme".as_bytes());
    }
}

#[test]
fn the_other_kinds_have_no_strings() {
    let mut fixture = Fixture::with_objects();
    let bad = strings(b"\xC0\x80", b"\xFF");
    for (kind, parent, call) in [(PARTICIPANT, 7, CREATE_PARTICIPANT), (DATA_READER, 2, CREATE_READER)] {
        assert_eq!(fixture.datagram(&Datagram::new(1, 0).create(MADE, kind, parent, &bad).bytes()), 0);
        assert_eq!(fixture.record.call, call);
        assert_eq!(fixture.answer(FAILED, 0, &[]), 0);
    }
    assert_eq!(fixture.datagram(&Datagram::new(1, 0).create(MADE, PUBLISHER, 0, &bad).bytes()), 0);
    assert_eq!(fixture.replied(), status(1, MADE, OK));
}

// "after ERR_RESOURCES and ERR_INCOMPATIBLE"
#[test]
fn a_full_session_and_dependants_come_first() {
    let mut fixture = Fixture::with_objects();
    for (number, parent) in [(1, 1), (1, 99), (2, 1)] {
        let topic = |strings: &[u8]| Datagram::new(1, 0).create(number, TOPIC, parent, strings);
        answers(&mut fixture, topic(&strings(b"n", b"\xFF")), number, ERR_INCOMPATIBLE);
        answers(&mut fixture, topic(b"\x01"), number, ERR_INCOMPATIBLE);
    }
    for number in 100..128 {
        assert_eq!(fixture.datagram(&Datagram::new(1, 0).create(number, PUBLISHER, 0, &[]).bytes()), 0);
    }
    answers(&mut fixture, create(b"caf\xE9", b"t"), MADE, ERR_RESOURCES);
    answers(&mut fixture, Datagram::new(1, 0).create(MADE, TOPIC, 1, &[]), MADE, ERR_RESOURCES);
    // One of the 32 numbers is as ever, and so are the dependants.
    answers(&mut fixture, Datagram::new(1, 0).create(100, TOPIC, 1, &strings(b"\x80", b"t")), 100, ERR_INVALID_DATA);
    answers(&mut fixture, Datagram::new(1, 0).create(1, TOPIC, 1, &strings(b"\x80", b"t")), 1, ERR_INCOMPATIBLE);
}

// Where the parent has no handle, no call would be made anyway.
#[test]
fn a_topic_without_a_parent() {
    let mut fixture = Fixture::with_objects();
    for strings in [strings(b"n", b"t"), strings(b"\xFF", b"t"), vec![]] {
        answers(&mut fixture, Datagram::new(1, 0).create(MADE, TOPIC, NOTHING, &strings), MADE, ERR_INVALID_DATA);
    }
    // Nobody is answered in a session that isn't live.
    let before = fixture.tables.clone();
    assert_eq!(fixture.datagram(&Datagram::new(2, 0).create(MADE, TOPIC, 1, &strings(b"\xFF", b"t")).bytes()), 0);
    assert!(fixture.record.wrote == 0 && fixture.tables == before);
}

#[test]
fn an_older_object_of_that_number_stays() {
    let mut fixture = Fixture::with_objects();
    calls(&mut fixture, create(b"n", b"t"), b"n", b"t");
    answers(&mut fixture, create(b"n", b"\xED\xA0\x80"), MADE, ERR_INVALID_DATA);
    // A writer and a reader become no Topic, and are used as before.
    for object in [3, 4] {
        let topic = Datagram::new(1, 0).create(object, TOPIC, 1, &strings(b"\xC1\xBF", b"t"));
        answers(&mut fixture, topic, object, ERR_INVALID_DATA);
    }
    assert_eq!(fixture.datagram(&Datagram::new(1, 0).write_data(3, b"a").bytes()), 0);
    assert_eq!((fixture.record.call, fixture.record.handle), (WRITE_DATA, 13));
}

/// A bad Topic between others: what is before it and behind it is done.
fn row(datagram: Datagram) -> Datagram {
    let bad = datagram.delete(90).create(8, TOPIC, 1, &strings(b"caf\xE9", b"t")).delete(91);
    bad.create(MADE, TOPIC, 1, &strings(b"n", b"t")).create(7, TOPIC, 1, b"\x02\x00").create(6, DATA_READER, 8, &[])
}

#[test]
fn the_submessages_behind_it_are_handled() {
    let mut fixture = Fixture::with_objects();
    let invalid = |object| status(1, object, ERR_INVALID_DATA);
    let unknown = |object| status(1, object, ERR_UNKNOWN_REF);
    let (whole, parts) = (row(Datagram::new(1, 0)).bytes(), row(Datagram::new(0, 0)).submessages());
    let parts: Vec<Vec<u8>> = in_parts(1, 0, &parts, 20).unwrap().into_iter().map(Datagram::bytes).collect();
    for datagrams in [vec![whole], parts] {
        for datagram in &datagrams {
            assert_eq!((fixture.record.call, fixture.datagram(datagram)), (0, 0));
        }
        assert_eq!(fixture.replied(), [unknown(90), invalid(8), unknown(91)].concat());
        assert_eq!((fixture.record.call, shown(&fixture)), (CREATE_TOPIC, (&b"n"[..], &b"t"[..])));
        assert_eq!(fixture.answer(CREATED, 19, &[]), 0);
        assert_eq!(fixture.replied(), [status(1, MADE, OK), invalid(7), invalid(6)].concat());
        assert_eq!(fixture.record.open, 0);
    }
    assert_eq!(fixture.list(WHOLE, 32, 1), Ok(vec![4, 3, 2, MADE, 1]));
}

#[test]
fn in_rebuilt_bytes_as_well() {
    let mut fixture = Fixture::with_objects();
    let rebuilt = |name| Datagram::new(1, 0).fragment(0, 1, &create(name, b"t").submessages());
    for bytes in ILL_FORMED {
        let before = fixture.tables.clone();
        assert_eq!(fixture.datagram(&rebuilt(bytes).bytes()), 0);
        assert_eq!(fixture.replied(), status(1, MADE, ERR_INVALID_DATA), "{bytes:02x?}");
        assert_eq!((fixture.record.call, fixture.record.left_end), (0, 0), "{bytes:02x?}");
        let Tables { sessions, streams, objects, .. } = &fixture.tables;
        assert!(*sessions == before.sessions && *streams == before.streams && *objects == before.objects);
    }
    for text in TEXTS {
        calls(&mut fixture, rebuilt(text), text, b"t");
    }
}

#[test]
fn the_room_for_the_reply_is_exact() {
    let mut fixture = Fixture::with_objects();
    let bad = create(b"n", b"\xF4\x90\x80\x80");
    let (plain, rebuilt) = (bad.clone().bytes(), Datagram::new(1, 0).fragment(0, 1, &bad.submessages()).bytes());
    for datagram in [plain, rebuilt] {
        for room in 0..11 {
            fixture.out.resize(room, FILL);
            assert_eq!(fixture.datagram(&datagram), 13, "room {room}");
        }
        fixture.out.resize(11, FILL);
        assert_eq!(fixture.datagram(&datagram), 0);
        assert_eq!(fixture.replied(), status(1, MADE, ERR_INVALID_DATA));
    }
}

/// Whether a Topic of that name comes to a call. The bridge fails, so the session stays as it was.
fn comes_to_a_call(agent: &mut Agent, name: &[u8]) -> bool {
    let mut out = [0; 11];
    let called = agent.incoming(&create(name, b"t").bytes(), Given::at(0), &mut out).unwrap().call.is_some();
    if called {
        agent.answer(Answer::Failed, &mut out).unwrap();
    }
    called
}

/// Each way to put one of these bytes behind the names.
fn longer(names: &[Vec<u8>], bytes: &[u8]) -> Vec<Vec<u8>> {
    names.iter().flat_map(|name| bytes.iter().map(|byte| [&name[..], &[*byte]].concat())).collect()
}

// All names of one and two bytes, and longer ones at the bounds of the table, beside Rust's own reader.
#[test]
fn names_are_taken_as_rust_takes_them() {
    const BOUNDS: [u8; 22] = [
        0x00, 0x7F, 0x80, 0x8F, 0x90, 0x9F, 0xA0, 0xBF, 0xC0, 0xC1, 0xC2, 0xDF, 0xE0, 0xE1, 0xEC, 0xED, 0xEE, 0xEF,
        0xF0, 0xF3, 0xF4, 0xF5,
    ];
    let (mut agent, mut out) = (Agent::new(1, 1000, &ALL_WEEK).unwrap(), [0; 11]);
    agent.incoming(&Datagram::new(0, 0).create_client([1; 4]).bytes(), Given::at(0), &mut out).unwrap();
    agent.incoming(&Datagram::new(1, 0).create(1, PARTICIPANT, 0, &[]).bytes(), Given::at(0), &mut out).unwrap();
    agent.answer(Answer::Created(Handle(11)), &mut out).unwrap();
    let all: Vec<u8> = (0..=255).collect();
    let one = longer(&[vec![]], &all);
    let three = longer(&longer(&longer(&[vec![]], &BOUNDS), &BOUNDS), &BOUNDS);
    let mut taken = 0;
    for name in [longer(&one, &all), longer(&three, b"\x7F\x80\xBF\xC0"), one, three].concat() {
        let text = std::str::from_utf8(&name).is_ok();
        assert_eq!(comes_to_a_call(&mut agent, &name), text, "{name:02x?}");
        taken += u32::from(text);
    }
    assert!(taken > 18_000, "{taken}");
}

#[test]
fn a_log_shows_names_as_text() {
    let shown = |name: &str, type_name: &str| {
        let (name, type_name) = (name.as_bytes(), type_name.as_bytes());
        Call::CreateTopic { participant: Handle(7), name, type_name }.to_string()
    };
    assert_eq!(shown("Küche", "a\n'\u{0}\u{202E}"), r"create_topic 7 'Küche' 'a\n\'\0\u{202e}'");
    let (whole, long) = ("ü".repeat(32), "ü".repeat(33));
    assert_eq!(shown(&whole, &long), format!("create_topic 7 '{whole}' '{whole}..' (66 bytes)"));
    // No agent hands such a name out, but a call can be made of any bytes.
    let call = Call::CreateTopic { participant: Handle(7), name: b"caf\xE9", type_name: b"" };
    assert_eq!(call.to_string(), "create_topic 7 'caf\u{FFFD}' ''");
}
