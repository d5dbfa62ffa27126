//! A bridge call in words, for logs: the names of the C interface, handles, names as text and data as bytes, cut at 32 of either.

use crate::call::Call;
use std::fmt;

/// A Topic's name or type: well-formed UTF-8 (document 02, W7), so nothing of it is lost here.
struct Name<'a>(&'a [u8]);

impl fmt::Display for Name<'_> {
    fn fmt(&self, f: &mut fmt::Formatter<'_>) -> fmt::Result {
        let text = String::from_utf8_lossy(self.0);
        match text.char_indices().nth(32) {
            Some((end, _)) => write!(f, "'{}..' ({} bytes)", text[..end].escape_debug(), self.0.len()),
            None => write!(f, "'{}'", text.escape_debug()),
        }
    }
}

struct Data<'a>(&'a [u8]);

impl fmt::Display for Data<'_> {
    fn fmt(&self, f: &mut fmt::Formatter<'_>) -> fmt::Result {
        match self.0.get(..32) {
            Some(start) if self.0.len() > 32 => write!(f, "'{}..' ({} bytes)", start.escape_ascii(), self.0.len()),
            _ => write!(f, "'{}'", self.0.escape_ascii()),
        }
    }
}

impl fmt::Display for Call<'_> {
    fn fmt(&self, f: &mut fmt::Formatter<'_>) -> fmt::Result {
        match self {
            Call::CreateParticipant { domain } => write!(f, "create_participant {domain}"),
            Call::CreateTopic { participant, name, type_name } => {
                write!(f, "create_topic {participant} {} {}", Name(name), Name(type_name))
            }
            Call::CreateWriter { participant, topic } => write!(f, "create_writer {participant} {topic}"),
            Call::CreateReader { participant, topic } => write!(f, "create_reader {participant} {topic}"),
            Call::WriteData { writer, data } => write!(f, "write_data {writer} {}", Data(data)),
            Call::ReadData { reader } => write!(f, "read_data {reader}"),
            Call::DeleteEntity { entity } => write!(f, "delete_entity {entity}"),
        }
    }
}
