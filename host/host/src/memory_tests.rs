//! The bridge in memory: samples reach the readers of their topic, queues are bounded, handles are never shared.

use super::*;
use crate::quota::MOST;

// A participant and a topic.
fn topic(bridge: &mut Memory, name: &[u8]) -> (Handle, Handle) {
    let participant = bridge.create_participant(0).unwrap();
    (participant, bridge.create_topic(participant, name, b"t").unwrap())
}

#[test]
fn samples_reach_readers_of_the_same_name_alone() {
    let mut bridge = Memory::default();
    let (p, a) = topic(&mut bridge, b"a");
    let b = bridge.create_topic(p, b"b", b"t").unwrap();
    let writer = bridge.create_writer(p, a).unwrap();
    let near = bridge.create_reader(p, a).unwrap();
    let other = bridge.create_reader(p, b).unwrap();
    bridge.serve_session(2);
    let (q, c) = topic(&mut bridge, b"a");
    let far = bridge.create_reader(q, c).unwrap();
    bridge.write_data(writer, b"x").unwrap();
    assert_eq!(bridge.read_data(near), Ok(Some(b"x".to_vec())));
    assert_eq!(bridge.read_data(far), Ok(Some(b"x".to_vec())));
    assert_eq!(bridge.read_data(other), Ok(None));
    assert_eq!(bridge.read_data(near), Ok(None));
    assert_eq!(bridge.read_data(writer), Err(Failed));
}

#[test]
fn a_full_queue_drops_the_oldest() {
    let mut bridge = Memory::default();
    let (p, t) = topic(&mut bridge, b"a");
    let (writer, reader) = (bridge.create_writer(p, t).unwrap(), bridge.create_reader(p, t).unwrap());
    for n in 0..=SAMPLES as u8 {
        bridge.write_data(writer, &[n]).unwrap();
    }
    assert_eq!(bridge.read_data(reader), Ok(Some(vec![1])));
    for _ in 0..3 {
        bridge.write_data(writer, &[7; 60_000]).unwrap();
    }
    assert_eq!(bridge.read_data(reader), Ok(Some(vec![7; 60_000])));
    assert_eq!(bridge.read_data(reader), Ok(Some(vec![7; 60_000])));
    assert_eq!(bridge.read_data(reader), Ok(None));
}

#[test]
fn a_session_takes_its_entities_along() {
    let mut bridge = Memory::default();
    bridge.serve_session(1);
    let (p, t) = topic(&mut bridge, b"a");
    let reader = bridge.create_reader(p, t).unwrap();
    bridge.serve_session(2);
    let (q, u) = topic(&mut bridge, b"a");
    let writer = bridge.create_writer(q, u).unwrap();
    bridge.end_session(1);
    assert_eq!(bridge.entities.len(), 3);
    assert_eq!(bridge.read_data(reader), Err(Failed));
    assert_eq!(bridge.write_data(writer, b"x"), Ok(()));
}

#[test]
fn a_session_is_cleared_away_from_the_last_made_to_the_first() {
    let mut bridge = Memory::default();
    let (p, t) = topic(&mut bridge, b"a");
    let (writer, reader) = (bridge.create_writer(p, t).unwrap(), bridge.create_reader(p, t).unwrap());
    let other = bridge.create_participant(0).unwrap();
    bridge.delete_entity(writer).unwrap();
    assert_eq!(bridge.made.take(0).collect::<Vec<_>>(), [other, reader, t, p]);
    assert_eq!(bridge.made.take(0).count(), 0);
}

#[test]
fn handles_are_not_used_twice_and_sessions_have_a_limit() {
    let mut bridge = Memory { last: u32::MAX - 1, ..Memory::default() };
    assert_eq!(bridge.create_participant(0), Ok(Handle(u32::MAX)));
    assert_eq!(bridge.create_participant(0), Ok(Handle(1)));
    bridge.last = u32::MAX - 1;
    assert_eq!(bridge.create_participant(0), Ok(Handle(2)));
    for _ in 3..MOST {
        bridge.create_participant(0).unwrap();
    }
    assert_eq!(bridge.create_participant(0), Err(Failed));
    bridge.serve_session(9);
    assert!(bridge.create_participant(0).is_ok());
}

#[test]
fn every_third_call_fails() {
    let mut bridge = Memory::new(3);
    let told: Vec<bool> = (0..6).map(|_| bridge.create_participant(0).is_ok()).collect();
    assert_eq!(told, [true, true, false, true, true, false]);
}
