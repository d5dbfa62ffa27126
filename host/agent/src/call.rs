//! Bridge calls that the agent hands out, and the answers that the host hands in.

use crate::records::{AgentRecord, Told};
use std::fmt;

/// An entity of the bridge. The agent hands out no handle that the bridge didn't return to a CREATE of the same session.
#[derive(Clone, Copy, Debug, PartialEq, Eq, PartialOrd, Ord, Hash)]
pub struct Handle(pub u32);

impl fmt::Display for Handle {
    fn fmt(&self, f: &mut fmt::Formatter<'_>) -> fmt::Result {
        self.0.fmt(f)
    }
}

/// A call that the host has to make now, and answer before anything else. Names and data are parts of the datagram, or of
/// the message that its last fragment completed. Names are well-formed UTF-8 (document 02, W7).
#[derive(Clone, Copy, Debug, PartialEq, Eq)]
#[allow(missing_docs)]
pub enum Call<'a> {
    CreateParticipant { domain: u16 },
    CreateTopic { participant: Handle, name: &'a [u8], type_name: &'a [u8] },
    CreateWriter { participant: Handle, topic: Handle },
    CreateReader { participant: Handle, topic: Handle },
    WriteData { writer: Handle, data: &'a [u8] },
    ReadData { reader: Handle },
    DeleteEntity { entity: Handle },
}

/// The bridge's answer to the open call. One of another kind than the call asks for is refused as 15.
#[derive(Clone, Copy, Debug, PartialEq, Eq)]
pub enum Answer<'a> {
    /// It made the entity.
    Created(Handle),
    /// It wrote, or deleted.
    Done,
    /// It read a sample.
    Sample(&'a [u8]),
    /// It had no sample.
    NoSample,
    /// It failed.
    Failed,
}

impl<'a> Call<'a> {
    /// The call that stands in the record, its names and data being parts of `shown`.
    pub(crate) fn standing(record: &AgentRecord, shown: &'a [u8]) -> Option<Call<'a>> {
        let part = |start: u64, len: u64| &shown[start as usize..][..len as usize];
        let (handle, topic) = (Handle(record.handle as u32), Handle(record.topic as u32));
        Some(match record.call {
            1 => Call::CreateParticipant { domain: record.handle as u16 },
            2 => Call::CreateTopic {
                participant: handle,
                name: part(record.start, record.len),
                type_name: part(record.type_start, record.type_len),
            },
            3 => Call::CreateWriter { participant: handle, topic },
            4 => Call::CreateReader { participant: handle, topic },
            5 => Call::WriteData { writer: handle, data: part(record.start, record.len) },
            6 => Call::ReadData { reader: handle },
            7 => Call::DeleteEntity { entity: handle },
            _ => return None,
        })
    }
}

impl<'a> Answer<'a> {
    /// The answer as `process` is told it, with the call's datagram.
    pub(crate) fn told(self, datagram: &'a [u8]) -> Told<'a> {
        let told = Told { datagram, ..Told::default() };
        match self {
            Answer::Created(handle) => Told { input: 1, handle: handle.0, ..told },
            Answer::Done => Told { input: 2, ..told },
            Answer::Sample(sample) => Told { input: 3, sample, ..told },
            Answer::NoSample => Told { input: 4, ..told },
            Answer::Failed => Told { input: 5, ..told },
        }
    }
}
