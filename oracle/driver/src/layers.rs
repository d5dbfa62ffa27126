//! The commands for the layers, answered by the original (README.md, "Commands for the layers").

use crate::clock;
use crate::refusals::refused;
use crate::words::{bytes, hex, number, silent, words};
use hdds_xrce::protocol::{
    decode_string, encode_string, fragment_payload, parse_message, serialize_message, AcknackPayload, ObjectKind,
    ReassemblyBuffer, Submessage,
};
use hdds_xrce::session::{ClientSession, SessionTable, StreamKind, StreamState, XrceObject};

pub struct Layers {
    pub store: ReassemblyBuffer,
    pub stream_id: u8,
    pub stream: StreamState,
    pub table: SessionTable,
}

impl Layers {
    pub fn new() -> Self {
        Self {
            store: ReassemblyBuffer::new(0),
            stream_id: 0,
            stream: StreamState::new(StreamKind::from_stream_id(0)),
            table: SessionTable::new(0, 0),
        }
    }

    /// The lines that answer one command.
    pub fn answer(&mut self, line: &str) -> Vec<String> {
        if silent(line) {
            return Vec::new();
        }
        let words = words(line);
        let known = self.of_codec(&words).or_else(|| self.of_stream(&words)).or_else(|| self.of_table(&words));
        known.unwrap_or_else(|| vec!["bad line".into()])
    }

    fn of_codec(&mut self, words: &[&str]) -> Option<Vec<String>> {
        let one = |line: String| Some(vec![line]);
        match *words {
            ["message", datagram] => Some(message(&bytes(datagram)?)),
            ["encode", text] => match String::from_utf8(bytes(text)?) {
                Ok(text) => one(format!("string {}", hex(&encode_string(&text)))),
                Err(_) => one("outside: the original's strings are UTF-8".into()),
            },
            ["decode", buf] => match decode_string(&bytes(buf)?) {
                Ok((text, used)) => one(format!("string {} {used}", hex(text.as_bytes()))),
                Err(error) => one(refused(&error)),
            },
            ["cut", size, payload] => Some(cut(&bytes(payload)?, number(size)?)),
            ["store", total, width] => {
                number::<u64>(width)?;
                self.store = ReassemblyBuffer::new(number(total)?);
                one("ok".into())
            }
            ["insert", at, body] => match self.store.insert(number(at)?, bytes(body)?) {
                Ok(true) => one("complete".into()),
                Ok(false) => one("incomplete".into()),
                Err(error) => one(refused(&error)),
            },
            ["has", at] => one(yes(self.store.has_fragment(number(at)?))),
            ["counts"] => one(format!("counts {} {}", self.store.received_count(), self.store.total_fragments())),
            ["assemble"] => match self.store.assemble() {
                Ok(payload) => one(format!("payload {}", hex(&payload))),
                Err(error) => one(refused(&error)),
            },
            _ => None,
        }
    }

    fn of_stream(&mut self, words: &[&str]) -> Option<Vec<String>> {
        let stream = &mut self.stream;
        let line = match *words {
            ["stream", id, next, expected] => {
                let id = number(id)?;
                let mut fresh = StreamState::new(StreamKind::from_stream_id(id));
                fresh.next_send_seq = number(next)?;
                fresh.next_recv_seq = number(expected)?;
                self.stream_id = id;
                self.stream = fresh;
                "ok".into()
            }
            ["alloc"] => format!("sequence {}", stream.alloc_send_seq()),
            ["record", at, body] => {
                stream.record_sent(number(at)?, bytes(body)?);
                "ok".into()
            }
            ["acknack", first, bitmap] => {
                let ack = AcknackPayload { first_unacked_seq: number(first)?, nack_bitmap: number(bitmap)? };
                repeats(&ack, &stream.process_acknack(&ack))
            }
            ["heartbeat"] => {
                let heartbeat = stream.make_heartbeat();
                format!("heartbeat {} {}", heartbeat.first_unacked_seq, heartbeat.last_seq)
            }
            ["receive", at] => yes(stream.check_recv_seq(number(at)?)),
            ["make_acknack", first, last] => {
                let ack = stream.make_acknack(number(first)?, number(last)?);
                format!("acknack {} {}", ack.first_unacked_seq, ack.nack_bitmap)
            }
            ["held"] => return Some(held(self.stream_id, stream)),
            _ => return None,
        };
        Some(vec![line])
    }

    fn of_table(&mut self, words: &[&str]) -> Option<Vec<String>> {
        let table = &mut self.table;
        let line = match *words {
            ["table", max, timeout] => {
                self.table = SessionTable::new(number(max)?, number(timeout)?);
                "ok".into()
            }
            ["create", key, time] => {
                let key = bytes(key)?.try_into().ok()?;
                clock::set(number(time)?);
                match table.create_session(key) {
                    Ok(id) => format!("session {id}"),
                    Err(error) => refused(&error),
                }
            }
            ["touch", id, time] => {
                clock::set(number(time)?);
                found(table.get_mut(number(id)?), |session| session.touch())
            }
            ["expired", id, timeout, time] => {
                clock::set(number(time)?);
                let timeout = number(timeout)?;
                match table.get(number(id)?) {
                    Some(session) => yes(session.is_expired(timeout)),
                    None => "absent".into(),
                }
            }
            ["sweep", time] => {
                clock::set(number(time)?);
                let mut gone = table.evict_expired();
                gone.sort();
                listed("swept", &gone)
            }
            ["remove", id] => table.remove(number(id)?).map_or("absent", |_| "removed").into(),
            ["live"] => format!("live {}", table.len()),
            ["open", id, stream] => {
                let stream = number(stream)?;
                found(table.get_mut(number(id)?), |session| {
                    session.stream(stream);
                })
            }
            ["dump"] => return Some(dump(table)),
            _ => return None,
        };
        Some(vec![line])
    }
}

fn yes(holds: bool) -> String {
    if holds { "yes" } else { "no" }.into()
}

fn listed<T: ToString>(word: &str, numbers: &[T]) -> String {
    numbers.iter().fold(word.to_string(), |line, n| line + " " + &n.to_string())
}

/// How many messages the bitmap asks for and how many are repeated (document 02, W5), then the numbers of these. The original
/// says the numbers alone.
fn repeats(ack: &AcknackPayload, numbers: &[u16]) -> String {
    listed(&format!("repeat {} {}", ack.nack_bitmap.count_ones(), numbers.len()), numbers)
}

fn found(session: Option<&mut ClientSession>, act: impl FnOnce(&mut ClientSession)) -> String {
    match session {
        Some(session) => {
            act(session);
            "ok".into()
        }
        None => "absent".into(),
    }
}

/// What a datagram says, and how it is written back.
fn message(datagram: &[u8]) -> Vec<String> {
    let message = match parse_message(datagram) {
        Ok(message) => message,
        Err(error) => return vec![refused(&error)],
    };
    let header = &message.header;
    let mut lines = vec![format!("header {} {} {}", header.session_id, header.stream_id, header.sequence_nr)];
    lines.extend(message.submessages.iter().map(submessage));
    lines.push(format!("written {}", hex(&serialize_message(&message))));
    lines
}

fn submessage(submessage: &Submessage) -> String {
    match submessage {
        Submessage::CreateClient(p) => format!("create_client {} {}", hex(&p.client_key), p.properties),
        Submessage::Create(p) => {
            format!("create {} {} {} {}", p.object_id, p.kind.as_u8(), p.parent_id, hex(&p.string_data))
        }
        Submessage::Delete(p) => format!("delete {}", p.object_id),
        Submessage::Status(p) => format!("status {} {}", p.related_object_id, p.status.as_u8()),
        Submessage::WriteData(p) => format!("write_data {} {}", p.writer_id, hex(&p.data)),
        Submessage::ReadData(p) => format!("read_data {} {}", p.reader_id, p.max_samples),
        Submessage::Data(p) => format!("data {} {}", p.reader_id, hex(&p.data)),
        Submessage::Heartbeat(p) => format!("heartbeat {} {}", p.first_unacked_seq, p.last_seq),
        Submessage::Acknack(p) => format!("acknack {} {}", p.first_unacked_seq, p.nack_bitmap),
    }
}

fn cut(payload: &[u8], size: usize) -> Vec<String> {
    match fragment_payload(payload, size) {
        Ok(fragments) => {
            let mut lines: Vec<String> = fragments.iter().map(|f| format!("fragment {}", hex(f))).collect();
            lines.push(format!("end {}", fragments.len()));
            lines
        }
        Err(error) => vec![refused(&error)],
    }
}

fn held(id: u8, stream: &StreamState) -> Vec<String> {
    let mut numbers: Vec<&u16> = stream.unacked.keys().collect();
    numbers.sort();
    let mut lines = vec![format!("stream {id} {} {}", stream.next_send_seq, stream.next_recv_seq)];
    lines.extend(numbers.iter().map(|n| format!("held {n} {}", hex(&stream.unacked[n]))));
    lines.push(format!("end {}", numbers.len()));
    lines
}

// The handle of a Publisher or Subscriber is a dummy in the original and not compared (document 01, "Domain of comparison").
fn object(object: &XrceObject) -> String {
    let kind = object.kind.as_u8();
    let handle = match object.kind {
        ObjectKind::Publisher | ObjectKind::Subscriber => "-".to_string(),
        _ => object.bridge_handle.to_string(),
    };
    format!("object {} {kind} {handle}", object.object_id)
}

/// The tables as REPLAY.md prints them.
pub fn dump(table: &SessionTable) -> Vec<String> {
    let mut lines = Vec::new();
    let mut sessions: Vec<&ClientSession> = table.sessions.values().collect();
    sessions.sort_by_key(|session| session.session_id);
    for session in sessions {
        let last = clock::milliseconds(session.last_activity);
        lines.push(format!("session {} {} {last}", session.session_id, hex(&session.client_key)));
        let mut objects: Vec<&XrceObject> = session.objects.values().collect();
        objects.sort_by_key(|object| object.object_id);
        lines.extend(objects.into_iter().map(object));
        let mut streams: Vec<(&u8, &StreamState)> = session.stream_states.iter().collect();
        streams.sort_by_key(|(id, _)| **id);
        for (id, stream) in streams {
            let mut held: Vec<(&u16, &Vec<u8>)> = stream.unacked.iter().collect();
            held.sort();
            let held: Vec<String> = held.iter().map(|(number, message)| format!("{number}:{}", hex(message))).collect();
            lines.push(listed(&format!("stream {id} {} {}", stream.next_send_seq, stream.next_recv_seq), &held));
        }
    }
    lines.push("dumped".into());
    lines
}
