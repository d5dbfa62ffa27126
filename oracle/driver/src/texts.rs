//! Texts by chance, and which strings lie inside the domain of comparison. Document 02, W7: "Reading a string now refuses bytes that
//! RFC 3629 doesn't allow", where the original puts U+FFFD in their place, so "the Rust is compared on whole, well-formed names".

use crate::chance::Chance;
use std::str::from_utf8;

/// The first and the last character of each row of RFC 3629's table, from U+0000 on, at which a reader might stop; then such as one might
/// leave out or replace: U+FEFF, U+FFFD and noncharacters.
pub const EDGES: [char; 25] = [
    '\0',
    '\u{7F}',
    '\u{80}',
    '\u{7FF}',
    '\u{800}',
    '\u{FFF}',
    '\u{1000}',
    '\u{CFFF}',
    '\u{D000}',
    '\u{D7FF}',
    '\u{E000}',
    '\u{FFFF}',
    '\u{10000}',
    '\u{3FFFF}',
    '\u{40000}',
    '\u{FFFFF}',
    '\u{100000}',
    '\u{10FFFF}',
    '\u{FEFF}',
    '\u{FFFD}',
    '\u{FFFE}',
    '\u{FDD0}',
    '\u{FDEF}',
    '\u{1FFFE}',
    '\u{10FFFE}',
];

/// Bytes that RFC 3629 doesn't allow: overlong forms, surrogates, what lies above U+10FFFF, tails alone, characters cut short, Latin-1.
pub const ILL_FORMED: [&[u8]; 21] = [
    b"\xc0\x80",
    b"\xc1\xbf",
    b"\xe0\x80\x80",
    b"\xe0\x9f\xbf",
    b"\xf0\x80\x80\x80",
    b"\xf0\x8f\xbf\xbf",
    b"\xed\xa0\x80",
    b"\xed\xbf\xbf",
    b"\xf4\x90\x80\x80",
    b"\xf5\x80\x80\x80",
    b"\xff",
    b"\x80",
    b"\xbf",
    b"\xc2",
    b"\xe1\x80",
    b"\xf1\x80\x80",
    b"\xf0\x9f\x92",
    b"\xe9",
    b"a\xffb",
    b"\xc3\xa9\xe9",
    b"\xe9\xc3\xa9",
];

/// A string as it stands on the wire: its length and its bytes.
pub fn string(text: &[u8]) -> Vec<u8> {
    [&(text.len() as u16).to_le_bytes()[..], text].concat()
}

fn between(chance: &mut Chance, least: char, greatest: char) -> char {
    char::from_u32(chance.within(least as u64, greatest as u64) as u32).expect("no surrogate lies between")
}

// Each length that a character has, and often an edge.
fn character(chance: &mut Chance) -> char {
    match chance.below(9) {
        0 | 1 => chance.pick(&EDGES),
        2 => between(chance, '\u{80}', '\u{7FF}'),
        3 => between(chance, '\u{800}', '\u{D7FF}'),
        4 => between(chance, '\u{E000}', '\u{FFFF}'),
        5 => between(chance, '\u{10000}', '\u{10FFFF}'),
        _ => chance.below(128) as u8 as char,
    }
}

/// So many characters of any length.
pub fn text(chance: &mut Chance, characters: u64) -> String {
    (0..characters).map(|_| character(chance)).collect()
}

/// A Topic's name or type: none, ASCII alone, characters of every length, now and then a long one.
pub fn name(chance: &mut Chance) -> String {
    let characters = match chance.below(400) {
        0 => 6000,
        1..=9 => chance.within(200, 1200),
        _ => chance.pick(&[0, 1, 1, 2, 5, 20]),
    };
    if chance.one_in(3) {
        return (0..characters).map(|_| between(chance, 'a', 'z')).collect();
    }
    text(chance, characters)
}

// The bytes of the string at the start, and what stands behind it; none if its length or its bytes are cut short.
fn whole(bytes: &[u8]) -> Option<(&[u8], &[u8])> {
    let [low, high, rest @ ..] = bytes else { return None };
    let length = usize::from(u16::from_le_bytes([*low, *high]));
    (length <= rest.len()).then(|| rest.split_at(length))
}

/// Whether both sides read the string at the start alike: one that is cut short, which both refuse as 1, or well-formed.
pub fn read_alike(bytes: &[u8]) -> bool {
    whole(bytes).map_or(true, |(text, _)| from_utf8(text).is_ok())
}

/// Whether name and type of a Topic, the two strings behind its parent number, are whole and well-formed; any bytes may follow.
pub fn whole_names(strings: &[u8]) -> bool {
    let Some((name, rest)) = whole(strings) else { return false };
    let Some((type_name, _)) = whole(rest) else { return false };
    from_utf8(name).is_ok() && from_utf8(type_name).is_ok()
}
