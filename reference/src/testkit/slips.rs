//! Slips that the verdict accepts, made without signing.
//!
//! The code works backwards. It chooses Pub(S), the digest and the word freely. Then it computes the matrix of Pub(S')
//! that makes the two sides of the verdict equal. That matrix is the inverse of the matrix that the digest's braid
//! reaches from the start, times the matrix that the word reaches from Pub(S).

use crate::digest::digest_braid;
use crate::field::Field;
use crate::key::{file_entries, write_key};
use crate::matrix::{matrix_product, Matrix};
use crate::pair::{carried, start, Pair, TValues};
use crate::testkit::matrices::{has_key_shape, inverse_matrix};
use crate::testkit::Random;
use crate::word::word_file;

/// A key, a digest and a word, as files.
#[derive(Clone, Debug, PartialEq, Eq)]
pub struct Slip {
    pub key: Vec<u8>,
    pub digest: Vec<u8>,
    pub word: Vec<u8>,
}

/// The key file of these parts. The key writer must accept them: both matrices must have the shape of a key's matrix
/// and an inverse.
pub fn key_file(field: Field, t_values: &TValues, pair: &Pair, second: &Matrix) -> Vec<u8> {
    assert!(has_key_shape(&pair.matrix) && has_key_shape(second), "row 8 does not fit a key file");
    let mut file = vec![0; field.key_bytes()];
    let (first, second) = (file_entries(&pair.matrix), file_entries(second));
    let answer = write_key(field, t_values, &pair.labels, &first, &second, &mut file);
    assert_eq!(answer, 0, "the key writer refused the parts");
    file
}

/// A slip with this word that the verdict accepts. The function solves for the matrix of Pub(S'). The matrices of
/// letters have the shape of a key's matrix and have inverses. So the matrix of Pub(S') has this shape and an inverse
/// if the matrix of Pub(S) has both. The digest must have the length that the field needs.
pub fn accepted_slip(field: Field, t_values: &TValues, pair: &Pair, digest: &[u8], codes: &[u8]) -> Slip {
    let encoded = carried(field, &start(), t_values, &digest_braid(digest)).matrix;
    let back = inverse_matrix(field, &encoded).expect("letters have inverses");
    let second = matrix_product(field, &back, &carried(field, pair, t_values, codes).matrix);
    Slip { key: key_file(field, t_values, pair, &second), digest: digest.to_vec(), word: word_file(codes) }
}

impl Random {
    /// A valid key file that belongs to no slip. Both matrices have an inverse.
    pub fn invertible_key(&mut self, field: Field) -> Vec<u8> {
        let second = self.invertible_key_pair(field).matrix;
        key_file(field, &self.key_t_values(field), &self.invertible_key_pair(field), &second)
    }

    /// A slip with this word that the verdict accepts under a random key. The matrices of Pub(S) and of Pub(S') have
    /// inverses.
    pub fn accepted_slip(&mut self, field: Field, digest: &[u8], codes: &[u8]) -> Slip {
        let pair = self.invertible_key_pair(field);
        accepted_slip(field, &self.key_t_values(field), &pair, digest, codes)
    }
}
