//! Holds the port's reader of strings to Rust's own decoder of UTF-8, which shares nothing with it: every sequence of up to three bytes,
//! of four bytes every one that begins as a character of four does, and more round the turns of RFC 3629's table.

use std::str::from_utf8;

/// What the port answers for a string with a byte missing, and for one that is no text (document 02, W7).
const BYTES_MISSING: u64 = 1;
const ILL_FORMED: u64 = 18;

/// Bytes at which RFC 3629's table turns, with those beside them.
const TURNS: [u8; 34] = [
    0x00, 0x01, 0x7E, 0x7F, 0x80, 0x81, 0x8E, 0x8F, 0x90, 0x91, 0x9E, 0x9F, 0xA0, 0xA1, 0xBE, 0xBF, 0xC0, 0xC1, 0xC2,
    0xC3, 0xDF, 0xE0, 0xE1, 0xEC, 0xED, 0xEE, 0xEF, 0xF0, 0xF1, 0xF3, 0xF4, 0xF5, 0xF8, 0xFF,
];

/// The first bytes of characters of four bytes, and one beside them on either side.
const FIRST_OF_FOUR: std::ops::RangeInclusive<u8> = 0xEF..=0xF5;

/// The first and the last character of each row with four bytes.
const LONGEST: [char; 6] = ['\u{10000}', '\u{3FFFF}', '\u{40000}', '\u{FFFFF}', '\u{100000}', '\u{10FFFF}'];

extern "C" {
    // include/xrce_wire.h
    fn xrce_wire_string(bytes: *const u8, bytes_len: usize, at: usize) -> u64;
}

fn port(bytes: &[u8], at: usize) -> u64 {
    // SAFETY: the function reads the slice alone, which outlives the call.
    unsafe { xrce_wire_string(bytes.as_ptr(), bytes.len(), at) }
}

fn expect(bytes: &[u8], at: usize, expected: u64) {
    let answer = port(bytes, at);
    if answer != expected {
        println!("differs: the string at {at} of {bytes:02x?}: the port answers {answer}, and {expected} is right");
        std::process::exit(1);
    }
}

/// A string as it stands on the wire: its length and its bytes.
fn string(text: &[u8]) -> Vec<u8> {
    [&(text.len() as u16).to_le_bytes()[..], text].concat()
}

/// The right answer for a whole string: its length above the refusal and the refusal's byte, both 0; or 18.
fn right(text: &[u8]) -> u64 {
    from_utf8(text).map_or(ILL_FORMED, |text| 65_536 * text.len() as u64)
}

/// How many sequences of a length were compared, and how many of them are text.
#[derive(Default)]
struct Count {
    compared: u64,
    accepted: u64,
}

impl Count {
    /// A string whose length stands in front of its bytes.
    fn compare(&mut self, string: &[u8]) {
        let right = right(&string[2..]);
        expect(string, 0, right);
        self.compared += 1;
        self.accepted += u64::from(right != ILL_FORMED);
    }

    fn say(&self, length: usize) {
        println!("{length} bytes: {} compared, {} of them text", self.compared, self.accepted);
    }
}

/// The bytes with a length that says one more: 1, whatever they are.
fn one_missing(string: &[u8]) {
    let mut longer = [0; 5];
    let longer = &mut longer[..string.len()];
    longer.copy_from_slice(string);
    longer[0] += 1;
    expect(longer, 0, BYTES_MISSING);
}

/// The string with bytes before and behind it, which change nothing.
fn among_others(string: &[u8]) {
    for beside in [0x00, 0x80, 0xF0] {
        expect(&[&[beside; 3][..], string, &[beside; 3]].concat(), 3, right(&string[2..]));
    }
}

/// Every sequence of up to three bytes.
fn every(length: usize) {
    let mut count = Count::default();
    let mut string = [length as u8, 0, 0, 0, 0];
    let string = &mut string[..2 + length];
    for value in 0..1u32 << (8 * length) {
        string[2..].copy_from_slice(&value.to_be_bytes()[4 - length..]);
        count.compare(string);
        one_missing(string);
        if length < 3 {
            among_others(string);
        }
    }
    count.say(length);
}

/// Any three bytes behind the first of a character of four; behind any other, two at which the table turns and any fourth.
fn four() {
    let mut count = Count::default();
    for first in FIRST_OF_FOUR {
        for value in 0..1u32 << 24 {
            let [_, second, third, fourth] = value.to_be_bytes();
            count.compare(&[4, 0, first, second, third, fourth]);
        }
    }
    for first in (0..=255).filter(|first| !FIRST_OF_FOUR.contains(first)) {
        for second in TURNS {
            for third in TURNS {
                (0..=255).for_each(|fourth| count.compare(&[4, 0, first, second, third, fourth]));
            }
        }
    }
    count.say(4);
}

/// Any one and any two bytes behind a character of four.
fn behind_a_character() {
    let (mut five, mut six) = (Count::default(), Count::default());
    for character in LONGEST {
        let mut text = [0; 6];
        character.encode_utf8(&mut text);
        for value in 0..=65_535u16 {
            text[4..].copy_from_slice(&value.to_le_bytes());
            six.compare(&string(&text));
            if value < 256 {
                five.compare(&string(&text[..5]));
            }
        }
    }
    five.say(5);
    six.say(6);
}

/// A long text, and the same with a byte that can't stand there, at each place in turn.
fn long(length: usize, step: usize) {
    let mut count = Count::default();
    let mut text = vec![b'a'; length];
    count.compare(&string(&text));
    for at in (0..length).rev().step_by(step) {
        text[at] = 0xBF;
        count.compare(&string(&text));
        text[at] = b'a';
    }
    count.say(length);
}

fn main() {
    expect(&[], 0, BYTES_MISSING);
    expect(&[0], 0, BYTES_MISSING);
    (0..4).for_each(every);
    four();
    behind_a_character();
    long(300, 1);
    long(65_535, 997);
}
