//! Why a call is refused: the numbers and words of document 01's table "Refused", and document 02's 17 to 20.

use std::error::Error;
use std::fmt;

/// A refused call. It changed no byte of what was lent to it.
#[derive(Clone, Copy, Debug, PartialEq, Eq, Hash)]
#[allow(missing_docs)]
pub enum Refusal {
    BufferTooShort,
    UnknownSubmessageId(u8),
    UnknownObjectKind(u8),
    UnknownStatusCode(u8),
    PayloadLengthMismatch,
    SessionFull,
    FragmentSizeZero,
    EmptyPayload,
    TooManyFragments,
    FragmentNumber,
    MissingFragments,
    TooLong,
    OutputTooShort,
    StoreFull,
    OutOfTurn,
    OverLimit,
    NotInFragments,
    IllFormed,
    WindowFault,
    NoSuchMinute,
}

impl Refusal {
    /// The refusal with that number, and that byte where it has one. There are 20.
    pub fn numbered(number: u8, byte: u8) -> Option<Refusal> {
        Some(match number {
            1 => Refusal::BufferTooShort,
            2 => Refusal::UnknownSubmessageId(byte),
            3 => Refusal::UnknownObjectKind(byte),
            4 => Refusal::UnknownStatusCode(byte),
            5 => Refusal::PayloadLengthMismatch,
            6 => Refusal::SessionFull,
            7 => Refusal::FragmentSizeZero,
            8 => Refusal::EmptyPayload,
            9 => Refusal::TooManyFragments,
            10 => Refusal::FragmentNumber,
            11 => Refusal::MissingFragments,
            12 => Refusal::TooLong,
            13 => Refusal::OutputTooShort,
            14 => Refusal::StoreFull,
            15 => Refusal::OutOfTurn,
            16 => Refusal::OverLimit,
            17 => Refusal::NotInFragments,
            18 => Refusal::IllFormed,
            19 => Refusal::WindowFault,
            20 => Refusal::NoSuchMinute,
            _ => return None,
        })
    }

    /// Its number in the documents.
    pub fn number(self) -> u8 {
        match self {
            Refusal::BufferTooShort => 1,
            Refusal::UnknownSubmessageId(_) => 2,
            Refusal::UnknownObjectKind(_) => 3,
            Refusal::UnknownStatusCode(_) => 4,
            Refusal::PayloadLengthMismatch => 5,
            Refusal::SessionFull => 6,
            Refusal::FragmentSizeZero => 7,
            Refusal::EmptyPayload => 8,
            Refusal::TooManyFragments => 9,
            Refusal::FragmentNumber => 10,
            Refusal::MissingFragments => 11,
            Refusal::TooLong => 12,
            Refusal::OutputTooShort => 13,
            Refusal::StoreFull => 14,
            Refusal::OutOfTurn => 15,
            Refusal::OverLimit => 16,
            Refusal::NotInFragments => 17,
            Refusal::IllFormed => 18,
            Refusal::WindowFault => 19,
            Refusal::NoSuchMinute => 20,
        }
    }

    /// The byte that comes with 2, 3 and 4.
    pub fn byte(self) -> Option<u8> {
        match self {
            Refusal::UnknownSubmessageId(byte)
            | Refusal::UnknownObjectKind(byte)
            | Refusal::UnknownStatusCode(byte) => Some(byte),
            _ => None,
        }
    }

    /// Its words in the documents.
    pub fn words(self) -> &'static str {
        match self {
            Refusal::BufferTooShort => "bytes missing, no submessage",
            Refusal::UnknownSubmessageId(_) => "id not listed",
            Refusal::UnknownObjectKind(_) => "object kind",
            Refusal::UnknownStatusCode(_) => "status code",
            Refusal::PayloadLengthMismatch => "payload under least length",
            Refusal::SessionFull => "max_clients sessions live",
            Refusal::FragmentSizeZero => "fragment size 0",
            Refusal::EmptyPayload => "payload to cut is empty",
            Refusal::TooManyFragments => "over 65,535 fragments",
            Refusal::FragmentNumber => "fragment number not below total",
            Refusal::MissingFragments => "fragments missing",
            Refusal::TooLong => "payload or string over 65,535 bytes",
            Refusal::OutputTooShort => "lent output shorter than the result",
            Refusal::StoreFull => "body over its slot; 17th held number; message over 1,024",
            Refusal::OutOfTurn => "agent call out of turn, or answer of another kind",
            Refusal::OverLimit => {
                "max_clients over 255, lent store under its documented need, or tables altered past a limit"
            }
            Refusal::NotInFragments => "a FRAGMENT or CREATE_CLIENT among rebuilt submessages",
            Refusal::IllFormed => "ill-formed UTF-8",
            Refusal::WindowFault => "a window empty, outside the day, overlapping, out of order or a ninth",
            Refusal::NoSuchMinute => "weekday over 6 or minute over 1,439",
        }
    }
}

impl fmt::Display for Refusal {
    fn fmt(&self, f: &mut fmt::Formatter<'_>) -> fmt::Result {
        match self.byte() {
            Some(byte) => write!(f, "{} (0x{byte:02X})", self.words()),
            None => f.write_str(self.words()),
        }
    }
}

impl Error for Refusal {}

/// What an answer of a C function says: its number, or the refusal.
pub fn read(answer: u64) -> Result<u64, Refusal> {
    let [number, byte, ..] = answer.to_le_bytes();
    match number {
        0 => Ok(answer / 65536),
        _ => Err(Refusal::numbered(number, byte).expect("the agent's refusals are numbered 1 to 20")),
    }
}
