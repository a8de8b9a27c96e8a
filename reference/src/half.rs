//! The verdict in two halves (document 02, section 4): one digest, many copies of a slip.
//!
//! The whole verdict and the halves compute the two matrices that are compared in different ways.
//!
//! - The target: the braid of a half byte is pure, that is, it does not change the list. So the matrix that a digest's
//!   braid reaches is the product of the matrices that the braids of its half bytes reach.
//! - The signature's matrix: a letter multiplies a matrix from the right. So the matrix that a word reaches from Pub(S)
//!   is the matrix of Pub(S) times the matrix that the word reaches from the identity matrix with Pub(S)'s list.

use crate::bits;
use crate::digest::{digest_answer, half_byte_braid};
use crate::field::Field;
use crate::key::{read_key, Key};
use crate::matrix::{identity, is_invertible, matrix_product, Matrix};
use crate::pair::{carried, start, Pair, TValues};
use crate::questions::{first_no, first_refusal, Question};
use crate::verdict::equality_answer;
use crate::word::{letters, word_answer};
use crate::STRANDS;

/// The result of the first half, and the input of the second: the field, the T-values, Pub(S), and the matrix that a
/// signature must reach from Pub(S).
#[derive(Clone, Copy, Debug, PartialEq, Eq)]
pub struct Half {
    pub field: Field,
    pub t_values: TValues,
    pub pair: Pair,
    pub target: Matrix,
}

impl Half {
    /// The half of a refusal: the field with 32 elements, and zeros.
    pub const ZEROS: Half =
        Half { field: Field::Gf32, t_values: [0; STRANDS], pair: Pair::ZEROS, target: [0; 64] };

    /// The half of an accepted key and a digest that goes with it.
    fn of(key: &Key, digest: &[u8]) -> Half {
        Half { field: key.field, t_values: key.t_values, pair: key.pair, target: target(key, digest) }
    }
}

/// The answer, and the half. On a refusal the half is [`Half::ZEROS`].
#[derive(Clone, Copy, Debug, PartialEq, Eq)]
pub struct Halved {
    pub answer: u8,
    pub half: Half,
}

/// The product of the matrices of the digest's half bytes, first to last, times the matrix of Pub(S').
fn target(key: &Key, digest: &[u8]) -> Matrix {
    let half_bytes = bits::numbers(&bits::of_bytes(digest), 4);
    half_bytes.into_iter().rev().fold(key.second, |after, half| {
        let reached = carried(key.field, &start(), &key.t_values, &half_byte_braid(half)).matrix;
        matrix_product(key.field, &reached, &after)
    })
}

/// The first half. Answers: the key's 1 to 7 and 26, then 8.
pub fn first_half(key: &[u8], digest: &[u8]) -> Halved {
    let key = read_key(key);
    match first_refusal(&[key.answer, digest_answer(key.field, digest)]) {
        0 => Halved { answer: 0, half: Half::of(&key, digest) },
        answer => Halved { answer, half: Half::ZEROS },
    }
}

/// The matrix of Pub(S) times the matrix that the letters reach from the identity matrix with Pub(S)'s list.
fn signed(half: &Half, codes: &[u8]) -> Matrix {
    let from = Pair { matrix: identity(), ..half.pair };
    let reached = carried(half.field, &from, &half.t_values, codes).matrix;
    matrix_product(half.field, &half.pair.matrix, &reached)
}

/// The questions about a half. A half may have what no key has: the first two T-values may be any elements but zero,
/// and row 8 of a matrix may hold any elements.
const QUESTIONS: [Question<Half>; 4] = [
    (17, |half| {
        let matrices = half.pair.matrix.iter().chain(&half.target);
        half.t_values.iter().chain(matrices).all(|number| half.field.has(*number))
    }),
    (4, |half| !half.t_values.contains(&0)),
    (6, |half| half.pair.has_inverse_lists()),
    (26, |half| [half.pair.matrix, half.target].iter().all(|matrix| is_invertible(half.field, matrix))),
];

/// The second half, over the field that the half names. Answers: 17, 4, 6, 26, then the word's 9 to 13, then 14.
pub fn second_half(half: &Half, word: &[u8]) -> u8 {
    match first_refusal(&[first_no(&QUESTIONS, half), word_answer(word)]) {
        0 => equality_answer(signed(half, &letters(word)), half.target),
        answer => answer,
    }
}
