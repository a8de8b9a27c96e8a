//! Matrices with an inverse, without one, of a chosen rank, and in the shape of a key's matrices.
//!
//! This module finds inverses and ranks by elimination. [`crate::matrix`] uses determinants, so the two methods check
//! each other.

use crate::field::Field;
use crate::key::key_matrix;
use crate::matrix::{at, identity, matrix_product, Matrix};
use crate::pair::Pair;
use crate::testkit::Random;
use crate::STRANDS;

/// Does the matrix have the shape of a key's matrix: are the first seven entries of row 8 zero?
pub fn has_key_shape(matrix: &Matrix) -> bool {
    (1..STRANDS).all(|column| matrix[at(STRANDS, column)] == 0)
}

/// The matrix with rows `a` and `b` swapped.
fn rows_swapped(mut matrix: Matrix, a: usize, b: usize) -> Matrix {
    for column in 1..=STRANDS {
        matrix.swap(at(a, column), at(b, column));
    }
    matrix
}

/// The matrix with a row multiplied by the element `by`.
fn row_scaled(field: Field, mut matrix: Matrix, row: usize, by: u8) -> Matrix {
    for column in 1..=STRANDS {
        matrix[at(row, column)] = field.times(by, matrix[at(row, column)]);
    }
    matrix
}

/// The matrix with `by` times the row `row` added to the row `to`.
fn row_added(field: Field, mut matrix: Matrix, row: usize, by: u8, to: usize) -> Matrix {
    for column in 1..=STRANDS {
        matrix[at(to, column)] ^= field.times(by, matrix[at(row, column)]);
    }
    matrix
}

/// The inverse of a matrix, if it has one, by elimination. The row operations that turn the matrix into the identity
/// turn the identity into the inverse.
pub fn inverse_matrix(field: Field, matrix: &Matrix) -> Option<Matrix> {
    let (mut left, mut right) = (*matrix, identity());
    for i in 1..=STRANDS {
        let pivot = (i..=STRANDS).find(|row| left[at(*row, i)] != 0)?;
        (left, right) = (rows_swapped(left, i, pivot), rows_swapped(right, i, pivot));
        let by = field.inverse(left[at(i, i)]);
        (left, right) = (row_scaled(field, left, i, by), row_scaled(field, right, i, by));
        for row in (1..=STRANDS).filter(|row| *row != i) {
            let by = left[at(row, i)];
            (left, right) = (row_added(field, left, i, by, row), row_added(field, right, i, by, row));
        }
    }
    Some(right)
}

/// The rank of a matrix, by elimination: the number of columns that have a pivot.
pub fn rank(field: Field, matrix: &Matrix) -> usize {
    let (mut left, mut pivots) = (*matrix, 0);
    for column in 1..=STRANDS {
        let Some(pivot) = (pivots + 1..=STRANDS).find(|row| left[at(*row, column)] != 0) else { continue };
        pivots += 1;
        left = rows_swapped(left, pivots, pivot);
        left = row_scaled(field, left, pivots, field.inverse(left[at(pivots, column)]));
        for row in pivots + 1..=STRANDS {
            left = row_added(field, left, pivots, left[at(row, column)], row);
        }
    }
    pivots
}

impl Random {
    /// A random matrix in the shape of a key's matrix.
    pub fn key_matrix(&mut self, field: Field) -> Matrix {
        key_matrix(&self.elements::<57>(field))
    }

    /// A matrix in the shape of a key's matrix with zeros for about half of its entries, so that pivots are often
    /// missing.
    pub fn sparse_key_matrix(&mut self, field: Field) -> Matrix {
        let entries = self.elements::<57>(field);
        key_matrix(&entries.map(|entry| if self.one_in(2) { entry } else { 0 }))
    }

    /// A permutation matrix in the shape of a key's matrix: the identity with its first seven rows in any order.
    pub fn permutation_matrix(&mut self) -> Matrix {
        let order = self.shuffled([1, 2, 3, 4, 5, 6, 7]);
        let mut matrix = [0; 64];
        for (row, column) in (1..).zip(order.into_iter().chain([STRANDS])) {
            matrix[at(row, column)] = 1;
        }
        matrix
    }

    /// A matrix in the shape of a key's matrix that has an inverse. Most are random; some are sparse or permutation
    /// matrices.
    pub fn invertible_key_matrix(&mut self, field: Field) -> Matrix {
        loop {
            let matrix = match self.below(8) {
                0 => self.permutation_matrix(),
                1 | 2 => self.sparse_key_matrix(field),
                _ => self.key_matrix(field),
            };
            if inverse_matrix(field, &matrix).is_some() {
                return matrix;
            }
        }
    }

    /// A matrix of rank `wanted` in the shape of a key's matrix. It is the product of a left matrix that is zero after
    /// column `wanted` and a right matrix that is zero after row `wanted`. Row 8 of the product is zero, or it is row
    /// `wanted` of the right matrix. In the second case the first seven entries of that row are set to zero.
    pub fn key_matrix_of_rank(&mut self, field: Field, wanted: usize) -> Matrix {
        loop {
            let (mut left, mut right): (Matrix, Matrix) = (self.elements(field), self.elements(field));
            for (i, past) in (1..=STRANDS).flat_map(|i| (wanted + 1..=STRANDS).map(move |past| (i, past))) {
                left[at(i, past)] = 0;
                right[at(past, i)] = 0;
            }
            left = row_scaled(field, left, STRANDS, 0);
            if wanted > 0 && self.one_in(2) {
                left[at(STRANDS, wanted)] = 1;
                (1..STRANDS).for_each(|column| right[at(wanted, column)] = 0);
            }
            let product = matrix_product(field, &left, &right);
            if rank(field, &product) == wanted {
                return product;
            }
        }
    }

    /// A matrix in the shape of a key's matrix that has no inverse. It is a matrix of any rank below 8, or a
    /// permutation matrix in which at least one of the ones is replaced by zero.
    pub fn singular_key_matrix(&mut self, field: Field) -> Matrix {
        let wanted = self.below(STRANDS as u64);
        if self.one_in(2) {
            return self.key_matrix_of_rank(field, wanted);
        }
        let rows = self.shuffled([1, 2, 3, 4, 5, 6, 7, 8]);
        rows[wanted..]
            .iter()
            .fold(self.permutation_matrix(), |matrix, row| row_scaled(field, matrix, *row, 0))
    }

    /// A matrix of any shape with an inverse.
    pub fn invertible_matrix(&mut self, field: Field) -> Matrix {
        loop {
            let matrix = self.elements(field);
            if inverse_matrix(field, &matrix).is_some() {
                return matrix;
            }
        }
    }

    /// A matrix of any shape without an inverse: a matrix without an inverse in the shape of a key's matrix, times a
    /// matrix with an inverse.
    pub fn singular_matrix(&mut self, field: Field) -> Matrix {
        let (singular, other) = (self.singular_key_matrix(field), self.invertible_matrix(field));
        matrix_product(field, &singular, &other)
    }

    /// A random pair. Its matrix has the shape of a key's matrix, and has an inverse.
    pub fn invertible_key_pair(&mut self, field: Field) -> Pair {
        Pair::of(self.invertible_key_matrix(field), self.labels())
    }
}
