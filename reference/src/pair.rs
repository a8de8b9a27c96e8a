//! Pairs and E-multiplication (document 01, "Letters and pairs"; source 003, sections 2 and 3).
//!
//! Source 003 gives each letter an 8 by 8 coloured Burau matrix in the variables t_1 to t_8. A pair (M, σ)
//! times a letter is (M · CB, σ · σ_i), where CB is the letter's matrix with t_k taken as the T-value of the
//! label σ(k), and σ_i exchanges i and i + 1. Document 01 states this rule column by column.
//!
//! A pair also carries the inverse list: the position of each label (document 02, section 5). [`Pair::of`] finds the
//! positions by scanning the list. A letter b_i then exchanges the positions i and i + 1, without looking at the list.

use crate::field::Field;
use crate::letter::{is_letter, letters_of, Letter};
use crate::matrix::{at, identity, matrix_product, Matrix};
use crate::questions::{first_no, is_each_label_once, Question};
use crate::STRANDS;

/// A list of eight labels, one for each position.
pub type Labels = [u8; STRANDS];

/// The position of each label, counted from 1.
pub type Positions = [u8; STRANDS];

/// T-values by label.
pub type TValues = [u8; STRANDS];

/// An 8 by 8 matrix, a list of labels, and the inverse list.
#[derive(Clone, Copy, Debug, PartialEq, Eq)]
pub struct Pair {
    pub matrix: Matrix,
    pub labels: Labels,
    pub positions: Positions,
}

impl Pair {
    /// The pair of a refusal: all zeros.
    pub const ZEROS: Pair = Pair { matrix: [0; 64], labels: [0; STRANDS], positions: [0; STRANDS] };

    /// The pair of a matrix and a list. A label that is not in the list gets position 0.
    pub fn of(matrix: Matrix, labels: Labels) -> Pair {
        let scanned = |label: u8| labels.iter().zip(1..).find(|(there, _)| **there == label);
        let positions =
            [0, 1, 2, 3, 4, 5, 6, 7].map(|label| scanned(label).map_or(0, |(_, position)| position));
        Pair { matrix, labels, positions }
    }

    /// Does the list hold the labels 0 to 7, each once, and does each label stand at its position?
    pub fn has_inverse_lists(&self) -> bool {
        let at = |position: u8| self.labels.get(usize::from(position).checked_sub(1)?).copied();
        is_each_label_once(&self.labels)
            && self.positions.iter().zip(0..).all(|(p, label)| at(*p) == Some(label))
    }
}

/// The starting pair: the identity matrix with the list 0 to 7.
pub fn start() -> Pair {
    Pair::of(identity(), [0, 1, 2, 3, 4, 5, 6, 7])
}

/// The T-values by position: each position has the T-value of its label.
fn permuted(t_values: &TValues, labels: &Labels) -> TValues {
    labels.map(|label| t_values[usize::from(label)])
}

/// The coloured Burau matrix of a letter, for values t_1 to t_8 (source 003, section 2, equations (2) and (3) and the
/// equation after them). It is the identity matrix except in row i, columns i - 1, i and i + 1. There b_i has t_i, t_i,
/// 1, and the inverse of b_i has 1, 1/t_(i+1), 1/t_(i+1). For i = 1 there is no column i - 1. Minus signs change
/// nothing in either field.
pub fn coloured_burau(field: Field, letter: Letter, t: &TValues) -> Matrix {
    let i = letter.generator;
    let (left, middle, right) = if letter.inverse {
        let s = field.inverse(t[i]);
        (1, s, s)
    } else {
        (t[i - 1], t[i - 1], 1)
    };
    let mut matrix = identity();
    if i > 1 {
        matrix[at(i, i - 1)] = left;
    }
    matrix[at(i, i)] = middle;
    matrix[at(i, i + 1)] = right;
    matrix
}

/// The permutation that exchanges positions i and i + 1, where i counts from 1. The entries of the result count from 0.
fn transposition(i: usize) -> [usize; STRANDS] {
    let mut places = [0, 1, 2, 3, 4, 5, 6, 7];
    places.swap(i - 1, i);
    places
}

/// The list that has at each position the label from the position that the permutation gives.
fn composed(labels: &Labels, places: [usize; STRANDS]) -> Labels {
    places.map(|place| labels[place])
}

/// The position of a strand after b_i or its inverse, which exchanges positions i and i + 1. Positions count from 1.
fn moved(position: u8, i: usize) -> u8 {
    match usize::from(position) {
        before if before == i => position + 1,
        before if before == i + 1 => position - 1,
        _ => position,
    }
}

/// A pair times one letter.
pub fn e_multiplied(field: Field, pair: &Pair, t_values: &TValues, letter: Letter) -> Pair {
    let burau = coloured_burau(field, letter, &permuted(t_values, &pair.labels));
    Pair {
        matrix: matrix_product(field, &pair.matrix, &burau),
        labels: composed(&pair.labels, transposition(letter.generator)),
        positions: pair.positions.map(|position| moved(position, letter.generator)),
    }
}

/// The pair multiplied by the letters of a word, first to last. Every code must be a letter.
pub fn carried(field: Field, pair: &Pair, t_values: &TValues, codes: &[u8]) -> Pair {
    letters_of(codes).into_iter().fold(*pair, |pair, letter| e_multiplied(field, &pair, t_values, letter))
}

/// The list that a word reaches from a list. Every code must be a letter.
pub fn list_reached(labels: &Labels, codes: &[u8]) -> Labels {
    let letters = letters_of(codes).into_iter();
    letters.fold(*labels, |labels, letter| composed(&labels, transposition(letter.generator)))
}

/// The input of the multiplier's questions.
struct Step {
    pair: Pair,
    field: Field,
    t_values: TValues,
    letter: u8,
}

/// The questions of [`multiply`].
const QUESTIONS: [Question<Step>; 4] = [
    (17, |step| step.t_values.iter().chain(&step.pair.matrix).all(|n| step.field.has(*n))),
    (4, |step| !step.t_values.contains(&0)),
    (6, |step| step.pair.has_inverse_lists()),
    (12, |step| is_letter(step.letter)),
];

/// Multiplies the lent pair by one letter, over `field`. Answers: 17, 4, 6, 12.
pub fn multiply(pair: &mut Pair, field: Field, t_values: &TValues, letter: u8) -> u8 {
    let answer = first_no(&QUESTIONS, &Step { pair: *pair, field, t_values: *t_values, letter });
    if answer == 0 {
        *pair = carried(field, pair, t_values, &[letter]);
    }
    answer
}
