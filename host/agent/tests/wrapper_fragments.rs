//! Messages in parts through the safe wrapper (document 02, W6).

use wire::{in_parts, strings, Datagram, ERR_UNKNOWN_REF, OK};
use xrce_agent::{Agent, Answer, Bridge, Call, Failed, Given, Handle, ALL_WEEK};

const READER: u16 = 4;
/// An object that there isn't.
const NOTHING: u16 = 99;

/// A bridge that keeps what is written, and has one sample over and over.
#[derive(Default)]
struct Keeping(Vec<Vec<u8>>);

impl Bridge for Keeping {
    fn create_participant(&mut self, _: u16) -> Result<Handle, Failed> {
        Ok(Handle(1))
    }

    fn create_topic(&mut self, _: Handle, name: &[u8], type_name: &[u8]) -> Result<Handle, Failed> {
        self.0.push([name, b"/", type_name].concat());
        Ok(Handle(2))
    }

    fn create_writer(&mut self, _: Handle, _: Handle) -> Result<Handle, Failed> {
        Ok(Handle(3))
    }

    fn create_reader(&mut self, _: Handle, _: Handle) -> Result<Handle, Failed> {
        Ok(Handle(4))
    }

    fn write_data(&mut self, _: Handle, data: &[u8]) -> Result<(), Failed> {
        self.0.push(data.to_vec());
        Ok(())
    }

    fn read_data(&mut self, _: Handle) -> Result<Option<Vec<u8>>, Failed> {
        Ok(Some(vec![9; 1014]))
    }

    fn delete_entity(&mut self, _: Handle) -> Result<(), Failed> {
        Ok(())
    }
}

// All objects of a session and a long write, in one message of many parts.
#[test]
fn the_wrapper_serves_messages_in_parts() {
    let (mut agent, mut bridge, mut out) = (Agent::new(2, 1000, &ALL_WEEK).unwrap(), Keeping::default(), Vec::new());
    let data: Vec<u8> = (0..20_000).map(|at| (at * 7 + at / 256) as u8).collect();
    let message = {
        let objects =
            Datagram::new(0, 0).create(1, 1, 0, &[]).create(2, 2, 1, &strings(b"tower", b"tune")).create(3, 5, 2, &[]);
        objects.create(4, 6, 2, &[]).write_data(3, &data).delete(NOTHING).submessages()
    };
    agent.serve(&Datagram::new(0, 0).create_client([1; 4]).bytes(), Given::at(0), &mut out, &mut bridge).unwrap();
    for part in in_parts(1, 0, &message, 400).unwrap() {
        agent.serve(&part.bytes(), Given::at(1), &mut out, &mut bridge).unwrap();
    }
    let replies = [(1, OK), (2, OK), (3, OK), (4, OK), (3, OK), (NOTHING, ERR_UNKNOWN_REF)];
    assert_eq!(out, replies.map(|(object, code)| Datagram::new(1, 0).status(object, code).bytes()).concat());
    assert_eq!(bridge.0, [b"tower/tune".to_vec(), data]);
}

#[test]
fn a_call_of_the_wrapper_shows_rebuilt_bytes_until_its_answer() {
    let mut agent = Agent::new(1, 1000, &ALL_WEEK).unwrap();
    let mut out = [0; 64];
    agent.incoming(&Datagram::new(0, 0).create_client([1; 4]).bytes(), Given::at(0), &mut out).unwrap();
    let message = Datagram::new(0, 0).create(1, 1, 5, &[]).create(2, 2, 1, &strings(b"n", b"type")).submessages();
    let outcome =
        agent.incoming(&Datagram::new(1, 0).fragment(0, 1, &message).bytes(), Given::at(1), &mut out).unwrap();
    assert_eq!(outcome.call, Some(Call::CreateParticipant { domain: 5 }));
    let outcome = agent.answer(Answer::Created(Handle(7)), &mut out).unwrap();
    let topic = Call::CreateTopic { participant: Handle(7), name: b"n", type_name: b"type" };
    assert_eq!(outcome.call, Some(topic));
    assert_eq!((agent.open_call(), agent.open_session()), (Some(topic), Some(1)));
}

// ACKNACKs that nobody can see beforehand ask for far more than the wrapper lends at first.
#[test]
fn the_wrapper_lends_more_where_rebuilt_acknacks_ask_for_it() {
    let (mut agent, mut bridge, mut out) = (Agent::new(1, 1000, &ALL_WEEK).unwrap(), Keeping::default(), Vec::new());
    let opening = Datagram::new(1, 5).create_client([1; 4]).create(1, 1, 0, &[]).create(2, 2, 1, &strings(b"n", b"t"));
    let objects = opening.create(3, 5, 2, &[]).create(4, 6, 2, &[]);
    agent.serve(&objects.bytes(), Given::at(0), &mut out, &mut bridge).unwrap();
    let reads = (0..16).fold(Datagram::new(1, 5), |datagram, _| datagram.read_data(READER));
    agent.serve(&reads.bytes(), Given::at(0), &mut out, &mut bridge).unwrap();
    assert_eq!(out.len(), 16 * 1024);
    let asking = |datagram: Datagram| (0..20).fold(datagram, |datagram, _| datagram.acknack(0, 0xFFFF));
    for message in [Datagram::new(0, 0), Datagram::new(0, 0).write_data(3, b"first")] {
        let datagram = Datagram::new(1, 5).fragment(0, 1, &asking(message).submessages()).bytes();
        agent.serve(&datagram, Given::at(0), &mut out, &mut bridge).unwrap();
        assert_eq!(out.len() / 1024, 20 * 16);
    }
}
