//! Words that cloak, made without search, and their insertion into other words (document 02, section 12).
//!
//! A cloaking word of this module is a power of a generator between a word and its inverse. Let a and b be the T-values
//! of the labels at positions i and i + 1, and p their product. The letters b_i b_i leave the list as it was. Their
//! matrix is the identity except in row i, which has a + p, p, 1 + a in columns i - 1, i, i + 1. So row i of the power
//! 2 × k of b_i has (a + p) × s, p^k, (1 + a) × s, where s = 1 + p + .. + p^(k-1). There are three cases:
//!
//! - p is not 1: s is 0 if p^k = 1, because (1 + p) × s = 1 + p^k;
//! - p = 1: s is 0 for each even k;
//! - a = b = 1: the factors of s are 0, so k = 1 is enough.
//!
//! If w reaches a list for which the power cloaks, then w, the power, w⁻¹ cloaks for the list at which w starts.

use std::iter::successors;

use crate::field::Field;
use crate::letter::{codes_of, letters_of, Letter};
use crate::pair::{list_reached, Labels, TValues};
use crate::testkit::Random;
use crate::STRANDS;

/// The powers of an element, starting with the element itself.
fn powers(field: Field, element: u8) -> impl Iterator<Item = u8> {
    successors(Some(element), move |power| Some(field.times(*power, element)))
}

/// The order of an element other than zero: the least k above 0 for which its k-th power is 1.
pub fn order(field: Field, element: u8) -> usize {
    1 + powers(field, element).take_while(|power| *power != 1).count()
}

/// The least k above 0 for which the power 2 × k of b_i cloaks for a list whose labels at positions i and i + 1 have
/// these T-values.
pub fn half_power(field: Field, a: u8, b: u8) -> usize {
    match field.times(a, b) {
        1 if a == 1 => 1,
        1 => 2,
        product => order(field, product),
    }
}

/// The inverse word: the inverse letters in reverse order.
pub fn inverse_word(codes: &[u8]) -> Vec<u8> {
    let inverses: Vec<Letter> = letters_of(codes).into_iter().rev().map(Letter::inverted).collect();
    codes_of(&inverses)
}

/// The word `codes` with `word` inserted before the letter at `place`, counted from 0. If `place` is the number of
/// letters, `word` stands at the end.
pub fn inserted(codes: &[u8], place: usize, word: &[u8]) -> Vec<u8> {
    [&codes[..place], word, &codes[place..]].concat()
}

impl Random {
    /// T-values of a key under which [`Random::power_cloak`] makes short and long words. All T-values are powers with
    /// one random exponent. So over 256 elements the orders of their products all divide 255, 17, 15, 5 or 3.
    pub fn cloaking_t_values(&mut self, field: Field) -> TValues {
        let exponent = self.pick(&[1, 15, 17, 51, 85]);
        let raised = |t_value| powers(field, t_value).nth(exponent - 1).expect("powers do not end");
        self.key_t_values(field).map(raised)
    }

    /// The word w, then `power` letters b_i or `power` letters b_i⁻¹, then w⁻¹. Here i is `generator`.
    fn conjugated(&mut self, w: &[u8], generator: usize, power: usize) -> Vec<u8> {
        let letter = Letter { generator, inverse: self.one_in(2) };
        [w, &vec![letter.code(); power], &inverse_word(w)].concat()
    }

    /// A word that cloaks for the list under these T-values. Its word w has `letters` random letters.
    pub fn power_cloak(
        &mut self,
        field: Field,
        t_values: &TValues,
        labels: &Labels,
        letters: usize,
    ) -> Vec<u8> {
        let (w, i) = (self.word(letters), self.within(1, 7));
        let reached = list_reached(labels, &w);
        let [a, b] = [reached[i - 1], reached[i]].map(|label| t_values[usize::from(label)]);
        self.conjugated(&w, i, 2 * half_power(field, a, b))
    }

    /// A word that cloaks for the list under every key, because the first two T-values of every key are 1. Its word w
    /// has `letters` random letters and at most six more, which bring labels 0 and 1 next to each other.
    pub fn unit_cloak(&mut self, labels: &Labels, letters: usize) -> Vec<u8> {
        let mut w = self.word(letters);
        let reached = list_reached(labels, &w);
        let places: Vec<usize> = (1..=STRANDS).filter(|place| reached[place - 1] < 2).collect();
        let [first, second] = [places[0], places[1]];
        for generator in (first + 1..second).rev() {
            w.push(Letter { generator, inverse: self.one_in(2) }.code());
        }
        self.conjugated(&w, first, 2)
    }
}
