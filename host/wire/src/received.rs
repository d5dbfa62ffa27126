//! A client's side of a stream other than 0 (document 02, W5): DATA in the order of its numbers, and what to ask for again.

use std::collections::BTreeMap;

/// As many messages as an agent holds of a stream. It gives no further number before the first of them is acknowledged, so
/// one that isn't among the next 16 has come before.
const AHEAD: u16 = 16;

/// The DATA of one stream: the next number that is expected, and what came before its turn.
#[derive(Clone, Debug, Default)]
pub struct Received {
    expected: u16,
    early: BTreeMap<u16, Vec<u8>>,
}

impl Received {
    /// The next number that is expected.
    pub fn expected(&self) -> u16 {
        self.expected
    }

    /// Takes DATA with that number; whether it is one that hasn't come before.
    pub fn take(&mut self, sequence: u16, data: &[u8]) -> bool {
        let fresh = sequence.wrapping_sub(self.expected) < AHEAD && !self.early.contains_key(&sequence);
        if fresh {
            self.early.insert(sequence, data.to_vec());
        }
        fresh
    }

    /// The data whose turn it is; the number behind it is expected then.
    pub fn in_turn(&mut self) -> Option<Vec<u8>> {
        let data = self.early.remove(&self.expected)?;
        self.expected = self.expected.wrapping_add(1);
        Some(data)
    }

    /// The numbers that are missing before one that has come, as the bitmap of an ACKNACK whose first number is the expected
    /// one: bit b stands for the number b further on, modulo 65,536.
    pub fn missing(&self) -> u16 {
        let distance = |sequence: &u16| sequence.wrapping_sub(self.expected);
        let last = self.early.keys().map(distance).max().unwrap_or(0);
        let came = |bit: u16| self.early.contains_key(&self.expected.wrapping_add(bit));
        (0..last).filter(|bit| !came(*bit)).fold(0, |bitmap, bit| bitmap | 1 << bit)
    }
}

#[cfg(test)]
mod tests {
    use super::*;

    // A stream whose next number is that one, with nothing before its turn.
    fn at(expected: u16) -> Received {
        Received { expected, early: BTreeMap::new() }
    }

    #[test]
    fn data_comes_in_the_order_of_its_numbers() {
        let mut received = Received::default();
        for number in [2, 0, 3, 1] {
            assert!(received.take(number, &[number as u8]));
        }
        let all: Vec<Vec<u8>> = std::iter::from_fn(|| received.in_turn()).collect();
        assert_eq!(all, [[0], [1], [2], [3]]);
        assert_eq!((received.expected(), received.missing()), (4, 0));
    }

    #[test]
    fn missing_numbers_are_bits_from_the_expected_one_on() {
        let mut received = at(7);
        assert_eq!(received.missing(), 0);
        assert!(received.take(9, b"c") && received.take(12, b"f"));
        assert_eq!(received.missing(), 0b1_1011);
        assert!(received.in_turn().is_none());
        assert!(received.take(7, b"a"));
        assert_eq!(received.missing(), 0b1_1010);
        assert_eq!(received.in_turn().as_deref(), Some(&b"a"[..]));
        assert_eq!((received.expected(), received.missing()), (8, 0b1101));
        // As far ahead as there can be one: every number before it is asked for.
        let mut received = at(7);
        assert!(received.take(22, b"p"));
        assert_eq!(received.missing(), 0x7FFF);
    }

    #[test]
    fn what_has_come_before_is_not_taken_again() {
        let mut received = at(20);
        assert!(received.take(22, b"first") && !received.take(22, b"again"));
        for number in [19, 4, 0, 36, 65_535] {
            assert!(!received.take(number, b"old"), "{number}");
        }
        assert!(received.take(20, b"x") && received.take(21, b"y"));
        let all: Vec<Vec<u8>> = std::iter::from_fn(|| received.in_turn()).collect();
        assert_eq!(all, [&b"x"[..], b"y", b"first"]);
    }

    #[test]
    fn after_65535_comes_0() {
        let mut received = at(65_534);
        assert!(received.take(1, b"d") && received.take(65_535, b"b"));
        assert_eq!(received.missing(), 0b101);
        assert!(received.take(65_534, b"a") && received.take(0, b"c"));
        let all: Vec<Vec<u8>> = std::iter::from_fn(|| received.in_turn()).collect();
        assert_eq!(all, [b"a", b"b", b"c", b"d"]);
        assert_eq!(received.expected(), 2);
        assert!(!received.take(65_535, b"b"));
    }
}
