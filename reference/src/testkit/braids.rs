//! Words to shorten, and a check that a shorter word is the same braid. The check compares exponent sums, crossings,
//! and the pairs that both words carry a pair to.

use super::random::Random;
use super::walks::exponent_sum;
use crate::crossing::windings;
use crate::field::Field;
use crate::pair::carried;
use crate::reduce::cancels;

/// The word files of a class in tests/signatures.txt. The result is empty if the file does not have the class.
pub fn signatures(class: &str) -> Vec<Vec<u8>> {
    let byte = |two: &[u8]| {
        let text = std::str::from_utf8(two).expect("hexadecimal is ascii");
        u8::from_str_radix(text, 16).expect("words are hexadecimal")
    };
    include_str!("../../../tests/signatures.txt")
        .lines()
        .filter_map(|line| line.split_once(' ').filter(|(name, _)| *name == class))
        .map(|(_, file)| file.as_bytes().chunks(2).map(byte).collect())
        .collect()
}

impl Random {
    /// The first fault of `new`, a word that shortening made from `old`. There is no fault if `new` is not longer than
    /// `old`, is freely reduced, has the exponent sum and the crossings of `old`, and carries a random pair over each
    /// field to the same pair as `old` does.
    pub fn fault_of_shorter(&mut self, old: &[u8], new: &[u8]) -> Option<&'static str> {
        if new.len() > old.len() {
            return Some("the new word is longer");
        }
        if new.windows(2).any(|two| cancels(two[0], two[1])) {
            return Some("the new word is not freely reduced");
        }
        if exponent_sum(old) != exponent_sum(new) {
            return Some("the exponent sums differ");
        }
        if windings(old) != windings(new) {
            return Some("the crossings differ");
        }
        let apart = |field: &Field| {
            let (pair, t_values) = (self.pair(*field), self.t_values(*field));
            carried(*field, &pair, &t_values, old) != carried(*field, &pair, &t_values, new)
        };
        Field::BOTH.iter().any(apart).then_some("the two words carry a pair to different pairs")
    }
}
