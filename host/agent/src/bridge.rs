//! The bridge to DDS as a trait, and a datagram served whole over it.

use crate::agent::Agent;
use crate::call::{Answer, Call, Handle};
use crate::hours::Given;
use crate::refusal::Refusal;
use crate::replies::room;

/// The bridge couldn't do what it was asked. The client learns a status code, and no more.
#[derive(Clone, Copy, Debug, PartialEq, Eq)]
pub struct Failed;

/// The seven calls of the original's bridge. A Topic's name and type are the client's bytes, and well-formed UTF-8 (document 02, W7):
/// `std::str::from_utf8` takes every one that the agent hands out. U+0000 may stand in them.
#[allow(missing_docs)]
pub trait Bridge {
    fn create_participant(&mut self, domain: u16) -> Result<Handle, Failed>;
    fn create_topic(&mut self, participant: Handle, name: &[u8], type_name: &[u8]) -> Result<Handle, Failed>;
    fn create_writer(&mut self, participant: Handle, topic: Handle) -> Result<Handle, Failed>;
    fn create_reader(&mut self, participant: Handle, topic: Handle) -> Result<Handle, Failed>;
    fn write_data(&mut self, writer: Handle, data: &[u8]) -> Result<(), Failed>;
    /// One sample, or none if there is none.
    fn read_data(&mut self, reader: Handle) -> Result<Option<Vec<u8>>, Failed>;
    fn delete_entity(&mut self, entity: Handle) -> Result<(), Failed>;
}

/// What a bridge answered.
#[derive(Clone, Debug, PartialEq, Eq)]
#[allow(missing_docs)]
pub enum Answered {
    Created(Handle),
    Done,
    Sample(Vec<u8>),
    NoSample,
    Failed,
}

impl Answered {
    /// The answer as [`Agent::answer`] takes it.
    pub fn lend(&self) -> Answer<'_> {
        match self {
            Answered::Created(handle) => Answer::Created(*handle),
            Answered::Done => Answer::Done,
            Answered::Sample(sample) => Answer::Sample(sample),
            Answered::NoSample => Answer::NoSample,
            Answered::Failed => Answer::Failed,
        }
    }
}

fn created(made: Result<Handle, Failed>) -> Answered {
    made.map_or(Answered::Failed, Answered::Created)
}

fn done(did: Result<(), Failed>) -> Answered {
    did.map_or(Answered::Failed, |()| Answered::Done)
}

fn sampled(read: Result<Option<Vec<u8>>, Failed>) -> Answered {
    read.map_or(Answered::Failed, |sample| sample.map_or(Answered::NoSample, Answered::Sample))
}

impl Call<'_> {
    /// Makes the call.
    pub fn make(self, bridge: &mut dyn Bridge) -> Answered {
        match self {
            Call::CreateParticipant { domain } => created(bridge.create_participant(domain)),
            Call::CreateTopic { participant, name, type_name } => {
                created(bridge.create_topic(participant, name, type_name))
            }
            Call::CreateWriter { participant, topic } => created(bridge.create_writer(participant, topic)),
            Call::CreateReader { participant, topic } => created(bridge.create_reader(participant, topic)),
            Call::WriteData { writer, data } => done(bridge.write_data(writer, data)),
            Call::ReadData { reader } => sampled(bridge.read_data(reader)),
            Call::DeleteEntity { entity } => done(bridge.delete_entity(entity)),
        }
    }
}

impl Agent {
    /// A datagram with all its bridge calls; `out` then holds all replies and nothing else. It grows as they need, and
    /// not again for a datagram that needs no more. Refused: 15 if a call was open, 20, 1 to 5; then no bridge call was made.
    ///
    /// A sample over 65,533 bytes can't be replied (12), nor one over 1,014 on a stream other than 0 (14), where it would be
    /// held: it is lost, and the client is told that the read failed.
    pub fn serve(
        &mut self,
        datagram: &[u8],
        given: Given,
        out: &mut Vec<u8>,
        bridge: &mut dyn Bridge,
    ) -> Result<(), Refusal> {
        out.clear();
        out.resize(room(datagram, 0), 0);
        let mut wrote = loop {
            match self.incoming(datagram, given, out) {
                Ok(outcome) => break outcome.wrote,
                // Rebuilt ACKNACKs ask for more than could be counted.
                Err(Refusal::OutputTooShort) => out.resize(2 * out.len(), 0),
                Err(refusal) => {
                    out.clear();
                    return Err(refusal);
                }
            }
        };
        while let Some(call) = self.open_call() {
            let answered = call.make(bridge);
            wrote += self.served(datagram, &answered, wrote, out)?;
        }
        out.truncate(wrote);
        Ok(())
    }

    /// Hands the answer in with room behind the replies that stand there; how many bytes it added.
    fn served(&mut self, datagram: &[u8], answered: &Answered, at: usize, out: &mut Vec<u8>) -> Result<usize, Refusal> {
        let sample = if let Answered::Sample(sample) = answered { sample.len() } else { 0 };
        out.resize(at + room(datagram, sample), 0);
        let mut answer = answered.lend();
        loop {
            match self.answer(answer, &mut out[at..]) {
                Err(Refusal::TooLong | Refusal::StoreFull) => answer = Answer::Failed,
                Err(Refusal::OutputTooShort) => out.resize(2 * out.len(), 0),
                told => return Ok(told?.wrote),
            }
        }
    }
}
