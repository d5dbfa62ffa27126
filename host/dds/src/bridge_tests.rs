//! The bridge over a pretended DDS: nobody waits longer than stated, and whatever becomes of a call, an entity goes with its own session
//! and with no other.

use super::*;
use crate::entities::Quality;
use crate::pretend::Pretend;

const WAIT: Duration = Duration::from_millis(200);
/// What DDS takes for a slow call, and what a quick one is sure to stay under.
const SLOW: Duration = Duration::from_millis(800);
const QUICK: Duration = Duration::from_millis(190);

fn bridge() -> (Dds<Pretend>, Pretend) {
    let quality = Quality { best_effort: false, history: 64 };
    let settings = Settings { domain_offset: 10, quality, wait: WAIT, most: 6, domains: 2 };
    let world = Pretend::default();
    (Dds::new(world.clone(), settings, |_| ()), world)
}

// A participant, a topic in it, a writer and a reader.
fn all_four(bridge: &mut Dds<Pretend>) -> [Handle; 4] {
    let participant = bridge.create_participant(0).unwrap();
    let topic = bridge.create_topic(participant, b"a", b"t").unwrap();
    let writer = bridge.create_writer(participant, topic).unwrap();
    [participant, topic, writer, bridge.create_reader(participant, topic).unwrap()]
}

fn slow(world: &Pretend, call: &'static str) {
    world.0.lock().unwrap().slow = Some((call, SLOW));
}

fn deleted(world: &Pretend) -> Vec<Handle> {
    world.0.lock().unwrap().deleted.clone()
}

// The threads of sessions that are gone have ended too.
fn cleared(bridge: &Dds<Pretend>) {
    while !bridge.ending.iter().all(JoinHandle::is_finished) {
        sleep(Duration::from_millis(1));
    }
}

fn timed<T>(act: impl FnOnce() -> T) -> (T, Duration) {
    let start = Instant::now();
    (act(), start.elapsed())
}

#[test]
fn the_seven_calls() {
    let (mut bridge, world) = bridge();
    let [p, t, w, r] = all_four(&mut bridge);
    assert_eq!(bridge.write_data(w, b"x"), Ok(()));
    assert_eq!(bridge.read_data(r), Ok(None));
    world.0.lock().unwrap().sample = Some(vec![]);
    assert_eq!(bridge.read_data(r), Ok(Some(vec![])));
    for entity in [r, w, t, p] {
        assert_eq!(bridge.delete_entity(entity), Ok(()));
    }
    assert_eq!((deleted(&world), bridge.alive()), (vec![r, w, t, p], 0));
    assert_eq!(world.0.lock().unwrap().written, [b"x"]);
}

#[test]
fn what_dds_refuses_is_answered_as_failed() {
    let (mut bridge, world) = bridge();
    let [p, t, w, r] = all_four(&mut bridge);
    let refuses = |call| world.0.lock().unwrap().refuses = Some(call);
    refuses("participant");
    assert_eq!(bridge.create_participant(0), Err(Failed));
    refuses("topic");
    assert_eq!(bridge.create_topic(p, b"a", b"t"), Err(Failed));
    refuses("writer");
    assert_eq!(bridge.create_writer(p, t), Err(Failed));
    refuses("reader");
    assert_eq!(bridge.create_reader(p, t), Err(Failed));
    refuses("write");
    assert_eq!(bridge.write_data(w, b"x"), Err(Failed));
    refuses("take");
    assert_eq!(bridge.read_data(r), Err(Failed));
    refuses("delete");
    assert_eq!(bridge.delete_entity(r), Err(Failed));
    // Each was refused once, and the session goes on.
    assert_eq!((bridge.write_data(w, b"y"), bridge.delete_entity(w)), (Ok(()), Ok(())));
    assert_eq!(world.0.lock().unwrap().written, [b"y"]);
}

#[test]
fn what_dds_has_no_place_for_is_refused() {
    let (mut bridge, world) = bridge();
    assert_eq!(bridge.create_participant(223), Err(Failed));
    let p = bridge.create_participant(222).unwrap();
    for (name, type_name) in [(&b""[..], &b"t"[..]), (b"a\0b", b"t"), (b"a", b"t\0")] {
        assert_eq!(bridge.create_topic(p, name, type_name), Err(Failed), "{name:?} {type_name:?}");
    }
    for _ in 1..6 {
        bridge.create_topic(p, b"a", b"t").unwrap();
    }
    assert_eq!(bridge.create_topic(p, b"a", b"t"), Err(Failed));
    assert_eq!((bridge.alive(), deleted(&world)), (6, vec![]));
}

// A session that ends makes room for a domain, and so does a participant that was made too late.
#[test]
fn all_sessions_together_are_in_so_many_domains() {
    let (mut bridge, world) = bridge();
    bridge.serve_session(1);
    let p = bridge.create_participant(0).unwrap();
    bridge.serve_session(2);
    assert!(bridge.create_participant(0).is_ok() && bridge.create_participant(1).is_ok());
    assert_eq!(bridge.create_participant(2), Err(Failed));
    bridge.end_session(2);
    cleared(&bridge);
    bridge.serve_session(1);
    slow(&world, "participant");
    assert_eq!(bridge.create_participant(2), Err(Failed));
    sleep(SLOW);
    assert!(bridge.create_participant(3).is_ok());
    assert_eq!((bridge.create_participant(4), bridge.delete_entity(p)), (Err(Failed), Ok(())));
    assert!(bridge.create_participant(4).is_ok());
}

#[test]
fn an_entity_of_another_kind_is_refused() {
    let (mut bridge, world) = bridge();
    let [p, t, w, r] = all_four(&mut bridge);
    let q = bridge.create_participant(0).unwrap();
    assert_eq!(bridge.create_topic(t, b"a", b"t"), Err(Failed));
    assert_eq!(bridge.create_writer(q, t), Err(Failed));
    assert_eq!(bridge.create_reader(p, p), Err(Failed));
    assert_eq!((bridge.write_data(r, b"x"), bridge.read_data(w)), (Err(Failed), Err(Failed)));
    assert!(world.0.lock().unwrap().written.is_empty());
}

// Whatever the agent asked for: the books of a session have its own entities alone.
#[test]
fn another_sessions_entity_is_out_of_reach() {
    let (mut bridge, world) = bridge();
    bridge.serve_session(1);
    let [p, t, w, r] = all_four(&mut bridge);
    bridge.serve_session(2);
    let q = bridge.create_participant(0).unwrap();
    for entity in [p, t, w, r] {
        assert_eq!(bridge.delete_entity(entity), Err(Failed));
    }
    assert_eq!((bridge.write_data(w, b"x"), bridge.read_data(r)), (Err(Failed), Err(Failed)));
    assert_eq!((bridge.create_topic(p, b"a", b"t"), bridge.create_writer(p, t)), (Err(Failed), Err(Failed)));
    bridge.end_session(2);
    bridge.end_session(2);
    cleared(&bridge);
    assert!(bridge.close(SLOW));
    assert_eq!(deleted(&world), [q, r, w, t, p]);
}

#[test]
fn a_session_takes_its_own_along_the_last_made_first() {
    let (mut bridge, world) = bridge();
    bridge.serve_session(1);
    let [p, t, w, r] = all_four(&mut bridge);
    bridge.serve_session(2);
    let others = all_four(&mut bridge);
    bridge.end_session(1);
    cleared(&bridge);
    assert_eq!((bridge.alive(), deleted(&world)), (4, vec![r, w, t, p]));
    // A new session of that id has nothing, though DDS gives the old numbers again.
    bridge.serve_session(1);
    assert_eq!(bridge.delete_entity(others[3]), Err(Failed));
    assert_eq!(bridge.create_participant(0), Ok(p));
    assert_eq!(bridge.delete_entity(t), Err(Failed));
    bridge.serve_session(2);
    assert_eq!(bridge.write_data(others[2], b"x"), Ok(()));
    assert!(bridge.close(SLOW));
    assert_eq!((bridge.alive(), deleted(&world).len()), (0, 9));
}

// DDS takes along what is in a participant, here a topic whose object was replaced. Its number may be another session's entity then.
#[test]
fn a_number_that_dds_gives_again_is_not_the_first_sessions_any_more() {
    let (mut bridge, world) = bridge();
    bridge.serve_session(1);
    let p = bridge.create_participant(0).unwrap();
    let replaced = bridge.create_topic(p, b"a", b"t").unwrap();
    assert_eq!(bridge.delete_entity(p), Ok(()));
    assert_eq!(deleted(&world), [replaced, p]);
    bridge.serve_session(2);
    let others = all_four(&mut bridge);
    assert_eq!((others[0], others[1]), (p, replaced));
    bridge.serve_session(1);
    assert_eq!((bridge.delete_entity(replaced), bridge.delete_entity(p)), (Err(Failed), Err(Failed)));
    bridge.end_session(1);
    cleared(&bridge);
    assert_eq!((bridge.alive(), deleted(&world).len()), (4, 2));
}

#[test]
fn a_slow_call_is_waited_for_as_long_as_stated_and_holds_up_no_other_session() {
    let (mut bridge, world) = bridge();
    bridge.serve_session(2);
    let two = all_four(&mut bridge);
    bridge.serve_session(1);
    let one = all_four(&mut bridge);
    slow(&world, "topic");
    let (told, took) = timed(|| bridge.create_topic(one[0], b"slow", b"t"));
    assert_eq!(told, Err(Failed));
    assert!(WAIT <= took && took < SLOW, "{took:?}");
    // Its own session makes nothing before that is done and isn't waited for again, but writes and reads; the other one goes on.
    let (told, took) = timed(|| (bridge.create_reader(one[0], one[1]), bridge.write_data(one[2], b"y")));
    assert_eq!(told, (Err(Failed), Ok(())));
    assert!(took < QUICK, "{took:?}");
    bridge.serve_session(2);
    let (told, took) = timed(|| (bridge.create_topic(two[0], b"quick", b"t").is_ok(), bridge.write_data(two[2], b"z")));
    assert_eq!(told, (true, Ok(())));
    assert!(took < QUICK, "{took:?}");
    sleep(SLOW);
    bridge.serve_session(1);
    assert!(bridge.create_topic(one[0], b"slow", b"t").is_ok());
    assert_eq!(bridge.alive(), 10);
}

#[test]
fn an_entity_made_too_late_is_deleted() {
    let (mut bridge, world) = bridge();
    slow(&world, "participant");
    assert_eq!(bridge.create_participant(0), Err(Failed));
    sleep(SLOW);
    assert_eq!((bridge.alive(), deleted(&world)), (0, vec![Handle(1)]));
    assert_eq!(bridge.create_participant(0), Ok(Handle(1)));
    slow(&world, "participant");
    assert_eq!(bridge.create_participant(0), Err(Failed));
    // It is still being made when its session ends.
    assert!(!bridge.close(Duration::ZERO) && bridge.close(2 * SLOW));
    assert_eq!(bridge.alive(), 0);
}

// DDS takes its time with the reader. It is out of reach all the same, what is deleted behind it waits for its turn, and the session
// goes on.
#[test]
fn a_deletion_is_done_in_its_turn_though_nobody_waits() {
    let (mut bridge, world) = bridge();
    let [p, t, w, r] = all_four(&mut bridge);
    slow(&world, "delete");
    let (told, took) = timed(|| [r, r, w, t, p].map(|entity| bridge.delete_entity(entity)));
    assert_eq!(told, [Ok(()), Err(Failed), Ok(()), Ok(()), Ok(())]);
    assert!(took < QUICK, "{took:?}");
    assert_eq!(bridge.alive(), 4);
    let q = bridge.create_participant(0).unwrap();
    // All of them count until DDS has let them go.
    let other = bridge.create_participant(0);
    assert_eq!((other.is_ok(), bridge.create_participant(0)), (true, Err(Failed)));
    sleep(SLOW);
    assert_eq!((bridge.alive(), deleted(&world)), (2, vec![r, w, t, p]));
    assert_eq!(bridge.delete_entity(q), Ok(()));
}

#[test]
fn a_session_that_ends_is_not_waited_for() {
    let (mut bridge, world) = bridge();
    bridge.serve_session(1);
    all_four(&mut bridge);
    slow(&world, "delete");
    let ((), took) = timed(|| bridge.end_session(1));
    assert!(took < QUICK, "{took:?}");
    assert!(!bridge.close(Duration::ZERO));
    assert!(bridge.close(2 * SLOW));
    assert_eq!(bridge.alive(), 0);
}
