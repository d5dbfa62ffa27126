//! The original's errors by the numbers of document 01, "Refused".

use hdds_xrce::protocol::XrceError;

pub fn refused(error: &XrceError) -> String {
    match error {
        XrceError::BufferTooShort => "refused 1".into(),
        XrceError::UnknownSubmessageId(byte) => format!("refused 2 {byte}"),
        XrceError::UnknownObjectKind(byte) => format!("refused 3 {byte}"),
        XrceError::UnknownStatusCode(byte) => format!("refused 4 {byte}"),
        XrceError::PayloadLengthMismatch => "refused 5".into(),
        XrceError::SessionFull => "refused 6".into(),
        XrceError::FragmentError(text) => format!("refused {}", fragment_number(text)),
        other => format!("outside: {other}"),
    }
}

// The original tells its five errors about fragments apart by their text alone.
fn fragment_number(text: &str) -> u8 {
    match text {
        "max_payload must be > 0" => 7,
        "empty payload" => 8,
        "too many fragments" => 9,
        _ if text.starts_with("fragment_nr ") => 10,
        _ => 11,
    }
}
