//! Quiet hours (document 02, W8): the windows that set-up takes, writes in open and in closed minutes, and the first open minute. The
//! fixture checks each time that a refused call changed no byte, and that no datagram or answer changes the week's minutes.

mod common;

use common::*;
use wire::{
    in_parts, strings, Datagram, DATA_READER, DATA_WRITER, ERR_INCOMPATIBLE, ERR_UNKNOWN_REF, OK, PARTICIPANT,
    PUBLISHER, TOPIC,
};
use xrce_agent::lent::{Told, HOURS, REBUILT, SESSIONS};
use xrce_agent::{Agent, Answer, Call, Given, Handle, Outcome, Refusal, Window, ALL_WEEK};

const WRITER: u16 = 3;
const READER: u16 = 4;
/// An object that there isn't.
const NOTHING: u16 = 99;

/// Weekday 2 is open from 480 to 1,320, and the others never.
const DAY: u8 = 2;
const ONE: [Window; 1] = [Window::new(2, 480, 1320)];
/// Minutes of that weekday.
const OPEN: u16 = 480;
const CLOSED: u16 = 1320;

/// Windows that touch, at the ends of days and of the week, and weekdays mixed; two have none.
const MIXED: [Window; 12] = [
    Window::new(6, 0, 1),
    Window::new(1, 0, 480),
    Window::new(6, 1, 2),
    Window::new(0, 700, 701),
    Window::new(1, 480, 960),
    Window::new(1, 960, 961),
    Window::new(6, 1439, 1440),
    Window::new(4, 100, 1440),
    Window::new(1, 1000, 1200),
    Window::new(5, 0, 1440),
    Window::new(1, 1200, 1440),
    Window::new(0, 1438, 1439),
];

/// Whether a window of that weekday holds the minute, by the words of document 02.
fn holds(windows: &[Window], day: u8, minute: u16) -> bool {
    windows.iter().any(|window| window.day == u16::from(day) && window.from <= minute && minute < window.to)
}

/// All minutes of the week.
fn week() -> impl Iterator<Item = (u8, u16)> + Clone {
    (0..7).flat_map(|day| (0..1440).map(move |minute| (day, minute)))
}

/// Session 1 with the fixture's four objects, set up with these windows. They are made in a minute that may be closed.
fn with(windows: &[Window]) -> Fixture {
    let mut fixture = Fixture::empty();
    assert_eq!(fixture.setup_windows(WHOLE, windows, CLIENTS, 1000), 0);
    fixture.opens();
    fixture.fills(1);
    fixture
}

fn write(object: u16) -> Datagram {
    Datagram::new(1, 0).write_data(object, b"sample")
}

/// Whether a write goes through in that minute: with its call, or answered ERR_INCOMPATIBLE and no call made.
fn is_open(fixture: &mut Fixture, day: u8, minute: u16) -> bool {
    assert_eq!(fixture.datagram_in(&write(WRITER).bytes(), day, minute), 0);
    if fixture.record.call == 0 {
        assert_eq!(fixture.replied(), status(1, WRITER, ERR_INCOMPATIBLE), "weekday {day}, minute {minute}");
        return false;
    }
    assert_eq!((fixture.record.call, fixture.record.handle, fixture.record.wrote), (WRITE_DATA, 13, 0));
    assert_eq!(fixture.answer(DONE, 0, &[]), 0);
    assert_eq!(fixture.replied(), status(1, WRITER, OK), "weekday {day}, minute {minute}");
    true
}

// "With 480 to 1,320, minute 480 is open and 1,320 closed."
#[test]
fn minute_480_is_open_and_1320_closed() {
    let mut fixture = with(&ONE);
    for (minute, open) in [(0, false), (479, false), (480, true), (481, true), (1319, true), (1320, false)] {
        assert_eq!(is_open(&mut fixture, DAY, minute), open, "minute {minute}");
    }
    assert!(!is_open(&mut fixture, DAY, 1439));
    for day in (0..7).filter(|day| *day != DAY) {
        for minute in [0, 480, 481, 1319, 1439] {
            assert!(!is_open(&mut fixture, day, minute), "weekday {day}, minute {minute}");
        }
    }
}

/// Nothing is changed but the session's last activity, 900 ms.
#[test]
fn a_closed_write_only_touches_its_session() {
    let mut fixture = with(&ONE);
    let (bytes, mut before) = (write(WRITER).bytes(), fixture.tables.clone());
    let given = Given { time_ms: 900, day: DAY, minute: CLOSED };
    assert_eq!(fixture.process(WHOLE, Told { datagram: &bytes, given, ..Told::default() }), 0);
    assert_eq!(fixture.replied(), status(1, WRITER, ERR_INCOMPATIBLE));
    assert_eq!((fixture.record.open, fixture.record.call), (0, 0));
    before.sessions[1][2] = 900;
    assert!(fixture.tables == before);
}

/// A session with a writer, over the safe wrapper.
fn writing(windows: &[Window]) -> Agent {
    let (mut agent, mut out) = (Agent::new(1, 1000, windows).unwrap(), [0; 64]);
    let opening = Datagram::new(1, 0).create_client([1; 4]).create(1, PARTICIPANT, 0, &[]);
    let objects = opening.create(2, TOPIC, 1, &strings(b"n", b"t")).create(WRITER, DATA_WRITER, 2, &[]).bytes();
    agent.incoming(&objects, Given::at(0), &mut out).unwrap();
    for handle in 11..=13 {
        agent.answer(Answer::Created(Handle(handle)), &mut out).unwrap();
    }
    assert_eq!(agent.open_call(), None);
    agent
}

#[test]
fn every_minute_of_the_week() {
    for windows in [&MIXED[..], &ALL_WEEK, &ONE, &[]] {
        let (mut agent, mut out, write) = (writing(windows), [0; 11], write(WRITER).bytes());
        for (day, minute) in week() {
            let open = holds(windows, day, minute);
            let call = open.then_some(Call::WriteData { writer: Handle(13), data: b"sample" });
            let wrote = if open { 0 } else { 11 };
            let outcome = agent.incoming(&write, Given { time_ms: 0, day, minute }, &mut out);
            assert_eq!(outcome, Ok(Outcome { wrote, call }), "weekday {day}, minute {minute}");
            if open {
                agent.answer(Answer::Done, &mut out).unwrap();
            }
            let code = if open { OK } else { ERR_INCOMPATIBLE };
            assert_eq!(out[..], status(1, WRITER, code), "weekday {day}, minute {minute}");
        }
    }
}

// "Windows ascend and may touch." A weekday has up to 8, and those of several weekdays may come mixed.
#[test]
fn windows_that_are_taken() {
    let eight = |day: u16| (0..8).map(move |at| Window::new(day, 180 * at, 180 * (at + 1)));
    let of_all_days: Vec<Window> = (0..8).flat_map(|at| (0..7).map(move |day| Window::new(day, at, at + 1))).collect();
    let taken = [
        vec![],
        ALL_WEEK.to_vec(),
        ALL_WEEK.into_iter().rev().collect(),
        MIXED.to_vec(),
        vec![Window::new(0, 0, 1)],
        vec![Window::new(6, 1439, 1440)],
        eight(3).collect(),
        eight(6).chain(eight(0)).collect(),
        of_all_days,
    ];
    for windows in taken {
        let mut fixture = Fixture::with_objects();
        fixture.tables.hours.fill(FILL);
        assert_eq!(fixture.setup_windows(WHOLE, &windows, CLIENTS, 1000), 0, "{windows:?}");
        let kept: Vec<u8> = week().map(|(day, minute)| u8::from(holds(&windows, day, minute))).collect();
        assert!(fixture.tables.hours[..] == kept, "{windows:?}");
    }
}

/// Each way in which windows may be wrong.
fn faults() -> Vec<Vec<Window>> {
    let of_day = |windows: &[(u16, u16)]| windows.iter().map(|(from, to)| Window::new(3, *from, *to)).collect();
    let nine: Vec<(u16, u16)> = (0..9).map(|at| (at, at + 1)).collect();
    // Empty, and one that ends before it begins.
    let mut faults: Vec<Vec<Window>> = [(0, 0), (480, 480), (1440, 1440), (481, 480), (1440, 0)]
        .into_iter()
        .chain([(0, 1441), (1439, 1441), (1440, 1441), (480, u16::MAX)]) // outside the day
        .map(|window| of_day(&[window]))
        .collect();
    // Of a weekday that there isn't.
    faults.extend([7, 8, 255, 256, u16::MAX].map(|day| vec![Window::new(day, 480, 1320)]));
    // Overlapping, by a minute and whole.
    faults.push(of_day(&[(480, 600), (599, 700)]));
    faults.push(of_day(&[(480, 600), (480, 600)]));
    faults.push(of_day(&[(480, 600), (500, 550)]));
    faults.push(of_day(&[(480, 600), (0, 481)]));
    // Out of order.
    faults.push(of_day(&[(600, 700), (480, 600)]));
    faults.push(of_day(&[(100, 200), (600, 700), (480, 500)]));
    // A ninth.
    faults.push(of_day(&nine));
    faults
}

// "19, a window empty, outside the day, overlapping, out of order or a ninth": alone, and before and behind good windows.
#[test]
fn windows_that_are_refused() {
    let mut fixture = with(&ONE);
    for fault in faults() {
        let before = [&[Window::new(2, 0, 1440), Window::new(6, 7, 9)], &fault[..]].concat();
        let behind = [&fault[..], &[Window::new(2, 0, 1440), Window::new(6, 7, 9)]].concat();
        for windows in [&fault, &before, &behind] {
            assert_eq!(fixture.setup_windows(WHOLE, windows, CLIENTS, 1000), 19, "{windows:?}");
        }
        assert_eq!(Agent::new(1, 1000, &fault).err(), Some(Refusal::WindowFault), "{fault:?}");
    }
    // The agent that was there goes on, with its session and its windows.
    assert!(is_open(&mut fixture, DAY, OPEN) && !is_open(&mut fixture, DAY, CLOSED));
}

#[test]
fn other_weekdays_between_two_windows_of_one_do_not_hide_a_fault() {
    let mut fixture = with(&ONE);
    let other = |at: u16| Window::new(5, at, at + 1);
    for pair in [[(480, 600), (599, 700)], [(600, 700), (0, 600)]] {
        let [first, second] = pair.map(|(from, to)| Window::new(3, from, to));
        for between in 0..=8 {
            let windows: Vec<Window> = [first].into_iter().chain((0..between).map(other)).chain([second]).collect();
            assert_eq!(fixture.setup_windows(WHOLE, &windows, CLIENTS, 1000), 19, "{windows:?}");
            let good: Vec<Window> = (0..between).map(other).chain([second]).collect();
            assert_eq!(Agent::new(1, 1000, &good).err(), None, "{good:?}");
        }
    }
}

// "at set-up after 16"
#[test]
fn a_set_up_over_its_limits_is_16_whatever_its_windows_are() {
    let mut fixture = with(&ONE);
    for windows in [&[Window::new(7, 0, 1)][..], &ONE] {
        for short in [
            Short { agents: 0, ..WHOLE },
            Short { sessions: SESSIONS - 1, ..WHOLE },
            Short { rebuilt: REBUILT - 1, ..WHOLE },
            Short { hours: HOURS - 1, ..WHOLE },
            Short { hours: 0, ..WHOLE },
        ] {
            assert_eq!(fixture.setup_windows(short, windows, CLIENTS, 1000), 16);
        }
        assert_eq!(fixture.setup_windows(WHOLE, windows, 256, 1000), 16);
        assert_eq!(fixture.setup_windows(WHOLE, windows, CLIENTS + 1, 1000), 16);
    }
}

#[test]
fn a_set_up_replaces_the_windows_and_leaves_what_is_behind_the_week() {
    let mut fixture = with(&ONE);
    fixture.tables.hours = vec![FILL; HOURS + 3].into_boxed_slice();
    let longer = Short { hours: HOURS + 3, ..WHOLE };
    for windows in [&ALL_WEEK[..], &MIXED, &[], &ONE] {
        assert_eq!(fixture.setup_windows(longer, windows, CLIENTS, 1000), 0);
        let kept: Vec<u8> = week().map(|(day, minute)| u8::from(holds(windows, day, minute))).collect();
        assert!(fixture.tables.hours[..HOURS] == kept && fixture.tables.hours[HOURS..] == [FILL; 3]);
    }
}

// "20, weekday over 6 or minute over 1,439": of every datagram, whatever it holds.
#[test]
fn minutes_that_there_are_not() {
    let mut fixture = with(&ALL_WEEK);
    let datagrams = [
        write(WRITER),
        Datagram::new(0, 0).create_client([1; 4]),
        Datagram::new(1, 0).delete(NOTHING),
        Datagram::new(9, 0).heartbeat(0, 0),
    ];
    for datagram in datagrams.map(Datagram::bytes) {
        for (day, minute) in [(7, 0), (255, 0), (0, 1440), (0, u16::MAX), (6, 1440), (7, 1440), (255, u16::MAX)] {
            assert_eq!(fixture.datagram_in(&datagram, day, minute), 20, "weekday {day}, minute {minute}");
        }
        assert_eq!(fixture.datagram_in(&datagram, 6, 1439), 0);
        if fixture.record.call != 0 {
            assert_eq!(fixture.answer(DONE, 0, &[]), 0);
        }
    }
}

/// Datagrams that 1 to 5 refuse.
const UNREADABLE: [&[u8]; 5] = [
    &[1, 0, 0, 0],
    &[1, 0, 0, 0, 3, 0, 0, 0],
    &[1, 0, 0, 0, 1, 0, 5, 0, 1, 0, 7, 0, 0],
    &[1, 0, 0, 0, 5, 0, 3, 0, 1, 0, 5],
    &[1, 0, 0, 0, 2, 0, 1, 0, 3],
];

// 15, 16, 20, 1 to 5, and then what the submessages come to.
#[test]
fn the_order_of_refusals() {
    let mut fixture = with(&ONE);
    let given = Given { time_ms: 100, day: 7, minute: 0 };
    for (datagram, refusal) in UNREADABLE.into_iter().zip(1..) {
        assert_eq!(fixture.datagram_in(datagram, 7, 0), 20, "{datagram:?}");
        assert_eq!(fixture.datagram_in(datagram, 0, 0) % 256, refusal, "{datagram:?}");
        for short in [Short { sessions: 0, ..WHOLE }, Short { hours: HOURS - 1, ..WHOLE }] {
            assert_eq!(fixture.process(short, Told { datagram, given, ..Told::default() }), 16, "{datagram:?}");
        }
    }
    // 20 comes before 13, and before nothing else that a good datagram can be refused as.
    let delete = Datagram::new(1, 0).delete(NOTHING).bytes();
    fixture.out.clear();
    assert_eq!((fixture.datagram_in(&delete, 0, 1440), fixture.datagram_in(&delete, 0, 1439)), (20, 13));
    // Tables past a limit are 16 before it, and a call that is open is 15 before both.
    let mut altered = fixture.clone();
    altered.tables.sessions[1][3] = 33;
    assert_eq!(altered.datagram_in(&delete, 7, 0), 16);
    assert_eq!(fixture.datagram(&Datagram::new(1, 0).read_data(READER).bytes()), 0);
    assert_eq!(fixture.datagram_in(&delete, 7, 0), 15);
    let told = Told { datagram: &delete, given, ..Told::default() };
    assert_eq!(fixture.process(Short { hours: 0, sessions: 0, ..WHOLE }, told), 15);
}

// "WRITE_DATA to a known writer": others are answered as ever.
#[test]
fn an_unknown_writer_is_unknown_in_any_minute() {
    let mut fixture = with(&ONE);
    assert_eq!(fixture.datagram(&Datagram::new(1, 0).create(6, PUBLISHER, 0, &[]).bytes()), 0);
    for minute in [OPEN, CLOSED] {
        for object in [NOTHING, 6] {
            assert_eq!(fixture.datagram_in(&write(object).bytes(), DAY, minute), 0);
            assert_eq!(fixture.replied(), status(1, object, ERR_UNKNOWN_REF), "object {object}, minute {minute}");
        }
        // Nor does it come to a reply where there is no such session.
        let absent = Datagram::new(2, 0).write_data(WRITER, b"sample").bytes();
        assert_eq!((fixture.datagram_in(&absent, DAY, minute), fixture.record.wrote), (0, 0));
    }
    // Any object with a handle is taken for a writer, as before.
    for object in 1..=4 {
        assert_eq!(fixture.datagram_in(&write(object).bytes(), DAY, CLOSED), 0);
        assert_eq!(fixture.replied(), status(1, object, ERR_INCOMPATIBLE), "object {object}");
    }
}

/// A session's work but for its writes: on stream 1 its DATA is held, and repeated.
fn all_but_writes(fixture: &mut Fixture, minute: u16) -> Vec<Vec<u8>> {
    let steps = [
        (Datagram::new(0, 0).create_client([9; 4]), None),
        (Datagram::new(1, 0).create(7, DATA_READER, 2, &[]), Some((CREATED, 17))),
        (Datagram::new(1, 0).create(8, PUBLISHER, 0, &[]).delete(8), None),
        (Datagram::new(1, 1).read_data(7).acknack(0, 1), Some((SAMPLE, 0))),
        (Datagram::new(1, 0).read_data(7), Some((NO_SAMPLE, 0))),
        (Datagram::new(1, 2).heartbeat(0, 3).status(1, 0).data(1, b"x"), None),
        (Datagram::new(1, 0).delete(7), Some((DONE, 0))),
        (Datagram::new(1, 0).fragment(0, 2, b"x"), None),
    ];
    let mut replies = Vec::new();
    for (datagram, answer) in steps {
        assert_eq!(fixture.datagram_in(&datagram.bytes(), DAY, minute), 0);
        replies.push(fixture.replied().to_vec());
        assert_eq!(fixture.record.open != 0, answer.is_some());
        if let Some((input, handle)) = answer {
            assert_eq!(fixture.answer(input, handle, b"s"), 0);
            replies.push(fixture.replied().to_vec());
        }
    }
    replies
}

#[test]
fn all_else_is_the_same_in_a_closed_minute() {
    let (mut open, mut closed) = (with(&ONE), with(&ONE));
    assert_eq!(all_but_writes(&mut open, OPEN), all_but_writes(&mut closed, CLOSED));
    assert!(open.tables == closed.tables);
}

/// Whether the write behind a read's call is open, where the read comes in that minute and its answer with that one.
fn behind_a_call(fixture: &mut Fixture, minute: u16, answered: Given, short: Short) -> bool {
    let datagram = Datagram::new(1, 0).read_data(READER).write_data(WRITER, b"sample").bytes();
    assert_eq!(fixture.datagram_in(&datagram, DAY, minute), 0);
    let (record, is_open) = (&fixture.record, u64::from(minute == OPEN));
    assert_eq!((record.call, record.is_open), (READ_DATA, is_open));
    assert_eq!(fixture.answer_given(short, answered, NO_SAMPLE, 0, &[]), 0);
    if fixture.record.call == 0 {
        assert_eq!(fixture.replied(), [status(1, READER, OK), status(1, WRITER, ERR_INCOMPATIBLE)].concat());
        return false;
    }
    assert_eq!((fixture.record.call, fixture.replied()), (WRITE_DATA, &status(1, READER, OK)[..]));
    assert_eq!(fixture.record.is_open, is_open);
    assert_eq!(fixture.answer(DONE, 0, &[]), 0);
    true
}

// Weekday and minute belong to the datagram, whatever comes with the answer and whatever is lent as the week's minutes then.
#[test]
fn submessages_behind_a_call_go_by_their_datagrams_minute() {
    let mut fixture = with(&ONE);
    for (day, minute) in [(DAY, OPEN), (DAY, CLOSED), (0, 0), (7, 0), (255, u16::MAX)] {
        let answered = Given { time_ms: 5000, day, minute };
        for short in [WHOLE, Short { hours: 0, ..WHOLE }] {
            assert!(behind_a_call(&mut fixture, OPEN, answered, short), "weekday {day}, minute {minute}");
            assert!(!behind_a_call(&mut fixture, CLOSED, answered, short), "weekday {day}, minute {minute}");
        }
    }
    assert_eq!(fixture.record.is_open, 0);
}

// Rebuilt submessages see the weekday and minute of the datagram that completes them.
#[test]
fn rebuilt_writes_go_by_the_completing_datagram() {
    let mut fixture = with(&ONE);
    let message = Datagram::new(0, 0).delete(NOTHING).write_data(WRITER, b"in several parts").submessages();
    let parts: Vec<Vec<u8>> = in_parts(1, 0, &message, 10).unwrap().into_iter().map(Datagram::bytes).collect();
    let unknown = status(1, NOTHING, ERR_UNKNOWN_REF);
    let (last, first) = parts.split_last().unwrap();
    for (before, completing) in [(OPEN, CLOSED), (CLOSED, OPEN), (CLOSED, CLOSED), (OPEN, OPEN)] {
        for part in first {
            assert_eq!((fixture.datagram_in(part, DAY, before), fixture.record.wrote), (0, 0));
        }
        assert_eq!(fixture.datagram_in(last, DAY, completing), 0);
        if completing == CLOSED {
            assert_eq!(fixture.replied(), [&unknown[..], &status(1, WRITER, ERR_INCOMPATIBLE)].concat());
            assert_eq!((fixture.record.call, fixture.record.left_end), (0, 0));
        } else {
            assert_eq!((fixture.record.call, fixture.replied()), (WRITE_DATA, &unknown[..]));
            assert_eq!(fixture.answer(DONE, 0, &[]), 0);
            assert_eq!(fixture.replied(), status(1, WRITER, OK));
        }
    }
}

#[test]
fn a_rebuilt_write_behind_a_call_goes_by_its_datagrams_minute_too() {
    let mut fixture = with(&ONE);
    let message = Datagram::new(0, 0).read_data(READER).write_data(WRITER, b"rebuilt").submessages();
    let datagram = Datagram::new(1, 0).fragment(0, 1, &message).write_data(WRITER, b"plain").bytes();
    let closed = status(1, WRITER, ERR_INCOMPATIBLE);
    assert_eq!(fixture.datagram_in(&datagram, DAY, CLOSED), 0);
    assert_eq!(fixture.record.call, READ_DATA);
    let answered = Given { time_ms: 0, day: DAY, minute: OPEN };
    assert_eq!(fixture.answer_given(WHOLE, answered, NO_SAMPLE, 0, &[]), 0);
    assert_eq!(fixture.replied(), [&status(1, READER, OK)[..], &closed, &closed].concat());
    assert_eq!(fixture.record.open, 0);
}

#[test]
fn the_submessages_behind_a_closed_write_are_handled() {
    let mut fixture = with(&ONE);
    let datagram =
        Datagram::new(1, 6).write_data(WRITER, b"a").delete(NOTHING).write_data(WRITER, b"b").read_data(READER);
    assert_eq!(fixture.datagram_in(&datagram.delete(WRITER).bytes(), DAY, CLOSED), 0);
    let on_6 = |object, code| Datagram::new(1, 6).status(object, code).bytes();
    let closed = on_6(WRITER, ERR_INCOMPATIBLE);
    assert_eq!(fixture.replied(), [&closed[..], &on_6(NOTHING, ERR_UNKNOWN_REF), &closed].concat());
    assert_eq!((fixture.record.call, fixture.record.handle), (READ_DATA, 14));
    assert_eq!(fixture.answer(FAILED, 0, &[]), 0);
    // A writer can be taken down in a closed minute.
    assert_eq!((fixture.record.call, fixture.record.handle), (DELETE_ENTITY, 13));
    assert_eq!(fixture.answer(DONE, 0, &[]), 0);
    assert_eq!(fixture.replied(), on_6(WRITER, OK));
}

#[test]
fn the_room_for_the_reply_is_exact() {
    let mut fixture = with(&ONE);
    for room in 0..11 {
        fixture.out.resize(room, FILL);
        assert_eq!(fixture.datagram_in(&write(WRITER).bytes(), DAY, CLOSED), 13, "room {room}");
        // In an open minute it is a call, which needs no room.
        assert_eq!(fixture.datagram_in(&write(WRITER).bytes(), DAY, OPEN), 0, "room {room}");
        fixture.out.resize(11, FILL);
        assert_eq!(fixture.answer(DONE, 0, &[]), 0);
    }
    assert!(!is_open(&mut fixture, DAY, CLOSED));
}

#[test]
fn the_first_open_minute_round_the_week() {
    let mut fixture = with(&ONE);
    let first = Ok(Some((2, 480)));
    for (day, minute, wanted) in [
        (0, 0, first),
        (1, 1439, first),
        (2, 0, first),
        (2, 479, first),
        (2, 480, first),
        (2, 481, Ok(Some((2, 481)))),
        (2, 1319, Ok(Some((2, 1319)))),
        (2, 1320, first),
        (2, 1439, first),
        (3, 0, first),
        (6, 1439, first),
    ] {
        assert_eq!(fixture.first_open(WHOLE, day, minute), wanted, "weekday {day}, minute {minute}");
    }
    // One minute in the week is the answer to every question.
    for (day, minute) in [(0, 0), (0, 1439), (3, 700), (6, 0), (6, 1439)] {
        let mut fixture = with(&[Window::new(day, minute, minute + 1)]);
        for (from, at) in [(0, 0), (0, 1), (3, 699), (3, 700), (3, 701), (6, 1438), (6, 1439)] {
            let wanted = Ok(Some((u64::from(day), u64::from(minute))));
            assert_eq!(fixture.first_open(WHOLE, from, at), wanted, "weekday {from}, minute {at}");
        }
    }
}

/// The first open minute by a walk over the week.
fn walked(windows: &[Window], day: u8, minute: u16) -> Option<(u8, u16)> {
    let start = 1440 * usize::from(day) + usize::from(minute);
    week().cycle().skip(start).take(HOURS).find(|(day, minute)| holds(windows, *day, *minute))
}

// "the first open minute at or after a given one, round the week, and none exactly if no day has a window"
#[test]
fn the_first_open_minute_after_any() {
    for windows in [&MIXED[..], &ONE, &ALL_WEEK, &[]] {
        let agent = Agent::new(0, 1000, windows).unwrap();
        for (day, minute) in week().filter(|(_, minute)| minute % 240 < 2 || minute % 479 == 0 || minute % 700 == 0) {
            let first = agent.first_open(day, minute);
            assert_eq!(first, Ok(walked(windows, day, minute)), "weekday {day}, minute {minute}");
            assert_eq!(first == Ok(None), windows.is_empty());
        }
    }
}

#[test]
fn a_question_that_is_refused() {
    let mut fixture = with(&[]);
    assert_eq!(fixture.first_open(WHOLE, 6, 1439), Ok(None));
    for (day, minute) in [(7, 0), (255, 0), (0, 1440), (6, u16::MAX), (7, 1440)] {
        assert_eq!(fixture.first_open(WHOLE, day, minute), Err(20), "weekday {day}, minute {minute}");
        for short in [Short { hours: HOURS - 1, ..WHOLE }, Short { hours: 0, ..WHOLE }] {
            assert_eq!(fixture.first_open(short, day, minute), Err(16), "weekday {day}, minute {minute}");
            assert_eq!(fixture.first_open(short, 0, 0), Err(16));
        }
    }
    // No other store is lent with it.
    let none = Short { agents: 0, sessions: 0, streams: 0, objects: 0, rebuilt: 0, ..for_clients(0) };
    assert_eq!(fixture.first_open(none, 0, 0), Ok(None));
}

#[test]
fn the_question_is_never_out_of_turn() {
    let mut fixture = with(&ONE);
    assert_eq!(fixture.datagram_in(&write(WRITER).bytes(), DAY, OPEN), 0);
    assert_eq!(fixture.record.call, WRITE_DATA);
    assert_eq!(fixture.first_open(WHOLE, 3, 0), Ok(Some((2, 480))));
    assert_eq!(fixture.first_open(WHOLE, 7, 0), Err(20));
    assert_eq!(fixture.answer(DONE, 0, &[]), 0);
    assert_eq!(fixture.replied(), status(1, WRITER, OK));
}

#[test]
fn the_wrapper_has_windows_minutes_and_the_question() {
    let (mut agent, mut out) = (writing(&ONE), [0; 11]);
    let given = |day, minute| Given { time_ms: 0, day, minute };
    let bytes = write(WRITER).bytes();
    assert_eq!(agent.incoming(&bytes, given(7, 0), &mut out), Err(Refusal::NoSuchMinute));
    assert_eq!(agent.incoming(&bytes, given(0, 1440), &mut out), Err(Refusal::NoSuchMinute));
    assert_eq!(agent.first_open(0, 1440), Err(Refusal::NoSuchMinute));
    assert_eq!(agent.incoming(&bytes, given(DAY, CLOSED), &mut out), Ok(Outcome { wrote: 11, call: None }));
    assert_eq!(out[..], status(1, WRITER, ERR_INCOMPATIBLE));
    assert!(agent.incoming(&bytes, given(DAY, OPEN), &mut out).unwrap().call.is_some());
    assert_eq!(agent.first_open(DAY, CLOSED), Ok(Some((DAY, OPEN))));
    assert_eq!(Agent::new(256, 1000, &[Window::new(0, 1, 1)]).err(), Some(Refusal::OverLimit));
}
