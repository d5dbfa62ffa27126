//! The safe wrapper: calls and answers over the datagram that it keeps, and datagrams served whole.

use wire::{strings, Datagram};
use xrce_agent::{replies, Agent, Answer, Bridge, Call, Failed, Given, Handle, Outcome, Refusal, ALL_WEEK};

fn status(object: u16, code: u8) -> Vec<u8> {
    Datagram::new(1, 0).status(object, code).bytes()
}

fn opened() -> Agent {
    let mut agent = Agent::new(2, 1000, &ALL_WEEK).unwrap();
    let open = Datagram::new(0, 0).create_client([9; 4]).bytes();
    assert_eq!(agent.incoming(&open, Given::at(0), &mut [0; 11]), Ok(Outcome { wrote: 11, call: None }));
    agent
}

#[test]
fn limits() {
    assert_eq!(Agent::new(256, 1, &ALL_WEEK).err(), Some(Refusal::OverLimit));
    assert!(Agent::new(255, 1, &ALL_WEEK).is_ok());
}

#[test]
fn names_are_lent_until_the_answer_and_a_refused_answer_leaves_the_call_open() {
    let mut agent = opened();
    let mut out = [0; 64];
    let datagram = Datagram::new(1, 0).create(1, 1, 5, &[]).create(2, 2, 1, &strings(b"n", b"type")).delete(9).bytes();
    let outcome = agent.incoming(&datagram, Given::at(1), &mut out).unwrap();
    assert_eq!(outcome, Outcome { wrote: 0, call: Some(Call::CreateParticipant { domain: 5 }) });
    drop(datagram);
    let topic = Call::CreateTopic { participant: Handle(7), name: b"n", type_name: b"type" };
    let outcome = agent.answer(Answer::Created(Handle(7)), &mut out).unwrap();
    assert_eq!(outcome, Outcome { wrote: 11, call: Some(topic) });
    assert_eq!(topic.to_string(), "create_topic 7 'n' 'type'");
    assert_eq!(agent.answer(Answer::Done, &mut out), Err(Refusal::OutOfTurn));
    assert_eq!(agent.answer(Answer::Created(Handle(8)), &mut [0; 21]), Err(Refusal::OutputTooShort));
    assert_eq!(agent.incoming(&[], Given::at(1), &mut out), Err(Refusal::OutOfTurn));
    assert_eq!((agent.open_call(), agent.open_session()), (Some(topic), Some(1)));
    let outcome = agent.answer(Answer::Created(Handle(8)), &mut out).unwrap();
    assert_eq!(outcome, Outcome { wrote: 22, call: None });
    assert_eq!(replies(&out[..22]).collect::<Vec<_>>(), [&status(2, 0)[..], &status(9, 1)]);
    assert_eq!((agent.open_call(), agent.open_session()), (None, None));
}

#[test]
fn removal_and_sweep() {
    let mut agent = opened();
    assert_eq!((agent.remove(1), agent.remove(1)), (Ok(true), Ok(false)));
    let mut agent = opened();
    assert_eq!(agent.sweep(1000, &mut []), Ok(&[][..]));
    assert_eq!(agent.sweep(1001, &mut []), Err(Refusal::OutputTooShort));
    assert_eq!(agent.sweep(1001, &mut [0; 3]), Ok(&[1][..]));
}

#[test]
fn the_listing_takes_a_session_down_in_order_and_answers_while_a_call_is_open() {
    let (mut agent, mut bridge, mut out, mut numbers) = (opened(), Noting::default(), Vec::new(), [7; 6]);
    assert_eq!(agent.list(1, &mut []), Ok(&[][..]));
    agent.serve(&all_but_the_delete().bytes(), Given::at(1), &mut out, &mut bridge).unwrap();
    assert_eq!(agent.list(1, &mut numbers[..3]), Err(Refusal::OutputTooShort));
    assert_eq!(agent.list(2, &mut numbers), Ok(&[][..]));
    assert_eq!(numbers, [7; 6]);
    assert_eq!(agent.list(1, &mut numbers), Ok(&[4, 3, 2, 1][..]));
    assert_eq!(numbers, [4, 3, 2, 1, 7, 7]);
    // The other way round everything stays, and no call is made.
    bridge.calls.clear();
    agent.serve(&Datagram::new(1, 0).delete(1).delete(2).bytes(), Given::at(1), &mut out, &mut bridge).unwrap();
    assert_eq!((&out, bridge.calls.len()), (&[status(1, 3), status(2, 3)].concat(), 0));
    for (gone, number) in numbers[..4].iter().enumerate() {
        agent.incoming(&Datagram::new(1, 0).delete(*number).bytes(), Given::at(1), &mut out).unwrap();
        assert!(agent.open_call().is_some());
        assert_eq!(agent.list(1, &mut [0; 32]), Ok(&numbers[gone + 1..4]));
        assert_eq!(agent.answer(Answer::Done, &mut out), Ok(Outcome { wrote: 11, call: None }));
        assert_eq!(out[..11], status(*number, 0));
    }
}

#[test]
fn replies_that_are_cut_short_are_not_given() {
    let two = [status(1, 0), status(2, 0)].concat();
    assert_eq!(replies(&two).count(), 2);
    assert_eq!(replies(&two[..21]).count(), 1);
    assert_eq!(replies(&[]).count(), 0);
}

/// A bridge that notes its calls and reads one sample.
#[derive(Default)]
struct Noting {
    calls: Vec<String>,
    sample: Vec<u8>,
}

impl Noting {
    fn note(&mut self, call: Call<'_>) -> Handle {
        self.calls.push(call.to_string());
        Handle(10 + self.calls.len() as u32)
    }
}

impl Bridge for Noting {
    fn create_participant(&mut self, domain: u16) -> Result<Handle, Failed> {
        Ok(self.note(Call::CreateParticipant { domain }))
    }

    fn create_topic(&mut self, participant: Handle, name: &[u8], type_name: &[u8]) -> Result<Handle, Failed> {
        Ok(self.note(Call::CreateTopic { participant, name, type_name }))
    }

    fn create_writer(&mut self, participant: Handle, topic: Handle) -> Result<Handle, Failed> {
        Ok(self.note(Call::CreateWriter { participant, topic }))
    }

    fn create_reader(&mut self, participant: Handle, topic: Handle) -> Result<Handle, Failed> {
        Ok(self.note(Call::CreateReader { participant, topic }))
    }

    fn write_data(&mut self, writer: Handle, data: &[u8]) -> Result<(), Failed> {
        self.note(Call::WriteData { writer, data });
        Err(Failed)
    }

    fn read_data(&mut self, reader: Handle) -> Result<Option<Vec<u8>>, Failed> {
        self.note(Call::ReadData { reader });
        Ok(Some(self.sample.clone()))
    }

    fn delete_entity(&mut self, entity: Handle) -> Result<(), Failed> {
        self.note(Call::DeleteEntity { entity });
        Ok(())
    }
}

fn all_but_the_delete() -> Datagram {
    Datagram::new(1, 0)
        .create(1, 1, 3, &[])
        .create(2, 2, 1, &strings(b"n", b"t"))
        .create(3, 5, 2, &[])
        .create(4, 6, 2, &[])
        .write_data(3, b"a\n")
        .read_data(4)
}

fn all_seven() -> Datagram {
    all_but_the_delete().delete(4)
}

#[test]
fn a_datagram_served_whole() {
    let (mut agent, mut bridge, mut out) =
        (opened(), Noting { sample: b"s".to_vec(), ..Noting::default() }, Vec::new());
    agent.serve(&all_seven().bytes(), Given::at(1), &mut out, &mut bridge).unwrap();
    let calls = [
        "create_participant 3",
        "create_topic 11 'n' 't'",
        "create_writer 11 12",
        "create_reader 11 12",
        "write_data 13 'a\\n'",
        "read_data 14",
        "delete_entity 14",
    ];
    assert_eq!(bridge.calls, calls);
    let data = Datagram::new(1, 0).data(4, b"s").bytes();
    let wanted = [status(1, 0), status(2, 0), status(3, 0), status(4, 0), status(3, 2), data, status(4, 0)];
    assert_eq!(replies(&out).collect::<Vec<_>>(), wanted);
    assert_eq!(out, wanted.concat());
    assert_eq!(agent.serve(&[1, 0, 0, 0], Given::at(1), &mut out, &mut bridge), Err(Refusal::BufferTooShort));
    assert!(out.is_empty());
}

// On a stream other than 0 a DATA reply is held, and has at most 1,024 bytes.
#[test]
fn a_sample_that_is_too_long_to_be_held_is_a_failed_read() {
    for (len, reply) in [(1014, 1024), (1015, 11)] {
        let (mut agent, mut bridge) = (opened(), Noting { sample: vec![1; len], ..Noting::default() });
        let mut out = Vec::new();
        agent.serve(&all_but_the_delete().bytes(), Given::at(1), &mut out, &mut bridge).unwrap();
        let read = Datagram::new(1, 7).read_data(4).acknack(0, 0xFFFF).bytes();
        agent.serve(&read, Given::at(1), &mut out, &mut bridge).unwrap();
        // What is held is repeated at once; a failed read holds nothing.
        let repeated = if reply == 1024 { 1024 } else { 0 };
        assert_eq!(out.len(), reply + repeated, "a sample of {len} bytes");
        assert_eq!(agent.open_call(), None);
    }
}

#[test]
fn a_sample_that_is_too_long_is_a_failed_read() {
    for (len, wrote) in [(65_533, 65_543), (65_534, 11)] {
        let (mut agent, mut bridge) = (opened(), Noting { sample: vec![1; len], ..Noting::default() });
        let mut out = Vec::new();
        agent.serve(&all_seven().bytes(), Given::at(1), &mut out, &mut bridge).unwrap();
        assert_eq!(replies(&out).nth(5).unwrap().len(), wrote);
        assert_eq!(bridge.calls.len(), 7);
    }
}
