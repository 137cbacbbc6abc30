//! One allocation that holds everything a call is given and lent, with guard bytes
//! before, between and after.

use crate::random::Random;
use std::hint::black_box;
use std::ops::Range;

/// A part of the allocation: bytes that are given, or room that is lent.
pub enum Part<'a> {
    Given(&'static str, &'a [u8]),
    Lent(&'static str, usize),
}

#[derive(Clone)]
pub struct Arena {
    bytes: Vec<u8>,
    parts: Vec<(&'static str, Range<usize>)>,
}

impl Arena {
    /// Everything but the given bytes is random: the guards, of odd lengths, and the lent
    /// room.
    pub fn new(random: &mut Random, parts: &[Part]) -> Arena {
        let guard = |random: &mut Random| {
            let length = 17 + random.below(16);
            random.bytes(length)
        };
        let mut bytes = guard(random);
        let mut ranges = Vec::new();
        for part in parts {
            let start = bytes.len();
            let name = match *part {
                Part::Given(name, given) => {
                    bytes.extend_from_slice(given);
                    name
                }
                Part::Lent(name, length) => {
                    bytes.extend(random.bytes(length));
                    name
                }
            };
            ranges.push((name, start..bytes.len()));
            bytes.extend(guard(random));
        }
        Arena { bytes, parts: ranges }
    }

    /// The bytes of one part.
    pub fn part(&self, name: &str) -> &[u8] {
        &self.bytes[self.range(name)]
    }

    fn range(&self, name: &str) -> Range<usize> {
        self.parts.iter().find(|part| part.0 == name).expect("a part").1.clone()
    }

    /// The parts, each as a slice of its own.
    pub fn slices<const COUNT: usize>(&mut self) -> [&mut [u8]; COUNT] {
        let ranges: [Range<usize>; COUNT] = std::array::from_fn(|part| self.parts[part].1.clone());
        self.bytes.get_disjoint_mut(ranges).expect("parts do not overlap")
    }

    /// The whole allocation as it should be once these parts begin with these bytes.
    pub fn with(&self, beginnings: &[(&str, Vec<u8>)]) -> Vec<u8> {
        let mut expected = self.bytes.clone();
        for (name, beginning) in beginnings {
            expected[self.range(name)][..beginning.len()].copy_from_slice(beginning);
        }
        expected
    }

    /// Tells the first byte that is not as expected.
    pub fn compare(&self, expected: &[u8]) -> Result<(), String> {
        let found = black_box(&self.bytes);
        if found == expected {
            return Ok(());
        }
        let Some(at) = (0..found.len()).find(|&at| found[at] != expected[at]) else {
            return Err("other bytes than expected".to_string());
        };
        let place = match self.parts.iter().find(|part| part.1.contains(&at)) {
            Some((name, range)) => format!("byte {} of {name}", at - range.start),
            None => match self.parts.iter().rev().find(|part| part.1.end <= at) {
                Some((name, range)) => format!("guard byte {} after {name}", at - range.end),
                None => "a guard byte before everything".to_string(),
            },
        };
        Err(format!("{place} is {:02x}, not {:02x}", found[at], expected[at]))
    }
}

#[cfg(test)]
mod tests {
    use super::*;

    #[test]
    fn every_byte_is_watched() {
        let parts = [Part::Lent("first", 3), Part::Given("second", b"ab"), Part::Lent("third", 0)];
        let mut arena = Arena::new(&mut Random::new(3), &parts);
        let expected = arena.with(&[]);
        assert_eq!(arena.compare(&expected), Ok(()));
        for at in 0..expected.len() {
            arena.bytes[at] ^= 1;
            assert!(arena.compare(&expected).is_err(), "byte {at}");
            arena.bytes[at] ^= 1;
        }
        let [first, second, third] = arena.slices();
        assert_eq!((first.len(), &*second, third.len()), (3, &b"ab"[..], 0));
        first[1] ^= 255;
        assert!(arena.compare(&expected).unwrap_err().starts_with("byte 1 of first is"));
        let end = arena.parts[2].1.end;
        arena.bytes = expected.clone();
        arena.bytes[end] ^= 255;
        assert!(arena.compare(&expected).unwrap_err().starts_with("guard byte 0 after third is"));
    }

    #[test]
    fn beginnings_are_replaced() {
        let arena = Arena::new(&mut Random::new(4), &[Part::Lent("only", 4)]);
        let start = arena.parts[0].1.start;
        let expected = arena.with(&[("only", vec![1, 2])]);
        assert_eq!(arena.part("only"), &arena.bytes[start..start + 4]);
        assert_eq!(expected[start..start + 2], [1, 2]);
        assert_eq!(expected[start + 2..], arena.bytes[start + 2..]);
    }
}
