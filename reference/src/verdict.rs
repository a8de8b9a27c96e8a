//! The verdict (document 01, "Verdict and cloaking"; source 000, section 6).

use crate::digest::{digest_answer, digest_braid};
use crate::key::{read_key, Key};
use crate::matrix::{matrix_product, Matrix};
use crate::pair::{carried, start};
use crate::questions::{first_no, first_refusal};
use crate::word::{letters, word_answer};

/// The matrix that the signature's letters reach from Pub(S).
fn signed(key: &Key, codes: &[u8]) -> Matrix {
    carried(key.field, &key.pair, &key.t_values, codes).matrix
}

/// The matrix that the digest's braid reaches from the starting pair, times the matrix of Pub(S').
fn target(key: &Key, digest: &[u8]) -> Matrix {
    let reached = carried(key.field, &start(), &key.t_values, &digest_braid(digest)).matrix;
    matrix_product(key.field, &reached, &key.second)
}

/// The answer to the verdict's own question: 0 if the signature reaches the target matrix, otherwise 14. Lists are not
/// compared.
pub fn equality_answer(reached: Matrix, target: Matrix) -> u8 {
    first_no(&[(14, |matrices: &[Matrix; 2]| matrices[0] == matrices[1])], &[reached, target])
}

/// The verdict on a slip, over the key's field. Answers: the key's 1 to 7 and 26, the digest's 8, the word's 9 to 13,
/// then 14.
pub fn verify(key: &[u8], digest: &[u8], word: &[u8]) -> u8 {
    let key = read_key(key);
    match first_refusal(&[key.answer, digest_answer(key.field, digest), word_answer(word)]) {
        0 => equality_answer(signed(&key, &letters(word)), target(&key, digest)),
        answer => answer,
    }
}
