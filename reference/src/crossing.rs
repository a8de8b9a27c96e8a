//! How often two strands cross (document 02, section 2).
//!
//! This module keeps no list of labels. It follows the positions of two strands. The two cross at every letter that
//! exchanges their positions.

use crate::letter::{letters_of, Letter};
use crate::questions::{first_no, first_refusal};
use crate::word::{letters, word_answer};
use crate::STRANDS;

/// The answer, and how often the strands cross. On a refusal `crossings` is 0.
#[derive(Clone, Copy, Debug, PartialEq, Eq)]
pub struct Crossing {
    pub answer: u8,
    pub crossings: i32,
}

/// The position to which the letter moves the strand at `position`. Positions count from 1.
fn moved(position: usize, letter: Letter) -> usize {
    match position {
        _ if position == letter.generator => position + 1,
        _ if position == letter.generator + 1 => position - 1,
        _ => position,
    }
}

/// How often two strands cross that begin at these positions. Each letter that exchanges the two counts plus 1 if it is
/// a generator, and minus 1 if it is an inverse.
pub fn winding(codes: &[u8], from: [usize; 2]) -> i32 {
    let mut positions = from;
    let mut number = 0;
    for letter in letters_of(codes) {
        let next = positions.map(|position| moved(position, letter));
        if next == [positions[1], positions[0]] {
            number += if letter.inverse { -1 } else { 1 };
        }
        positions = next;
    }
    number
}

/// The winding of every two labels a < b, in increasing order. Label a begins at position a + 1.
pub fn windings(codes: &[u8]) -> Vec<(usize, usize, i32)> {
    let pairs = (0..STRANDS).flat_map(|a| (a + 1..STRANDS).map(move |b| (a, b)));
    pairs.map(|(a, b)| (a, b, winding(codes, [a + 1, b + 1]))).collect()
}

/// The answer to the question about the labels: 0 if they are two different labels, otherwise 27.
fn labels_answer(a: u8, b: u8) -> u8 {
    let labelled = |[a, b]: &[u8; 2]| usize::from(*a) < STRANDS && usize::from(*b) < STRANDS && a != b;
    first_no(&[(27, labelled)], &[a, b])
}

/// How often the strands with these labels cross. Answers: the word's 9 to 13, then 27.
pub fn crossings(word: &[u8], a: u8, b: u8) -> Crossing {
    match first_refusal(&[word_answer(word), labels_answer(a, b)]) {
        0 => Crossing {
            answer: 0,
            crossings: winding(&letters(word), [a, b].map(|label| usize::from(label) + 1)),
        },
        answer => Crossing { answer, crossings: 0 },
    }
}
