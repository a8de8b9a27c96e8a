//! 8 by 8 matrices over a field, row by row in one run of 64 entries.

use crate::field::Field;
use crate::STRANDS;

/// Entry (r, c), both counted from 1, stands at 8 × (r - 1) + (c - 1).
pub type Matrix = [u8; 64];

/// The place of the entry in a row and a column, both counted from 1.
pub fn at(row: usize, column: usize) -> usize {
    STRANDS * (row - 1) + (column - 1)
}

/// The identity matrix.
pub fn identity() -> Matrix {
    let mut matrix = [0; 64];
    for i in 1..=STRANDS {
        matrix[at(i, i)] = 1;
    }
    matrix
}

/// The matrix product: row by column, with the field's sums and products. Zeros of the right factor are skipped because
/// they add nothing, and most entries of a letter's matrix are zeros.
pub fn matrix_product(field: Field, left: &Matrix, right: &Matrix) -> Matrix {
    let mut result = [0; 64];
    for row in 1..=STRANDS {
        for column in 1..=STRANDS {
            result[at(row, column)] = (1..=STRANDS)
                .filter(|k| right[at(*k, column)] != 0)
                .map(|k| field.times(left[at(row, k)], right[at(k, column)]))
                .fold(0, |sum, term| sum ^ term);
        }
    }
    result
}

/// The determinant, by expansion along the last row: the sum of each entry of the last row times the determinant of the
/// rows before it on the other columns. Signs change nothing in either field.
///
/// A number stands for a set of columns, one bit for each column. `minors` has the determinant for every set of k
/// columns and the first k rows. A subset has a smaller number than its set, so increasing order computes it first.
pub fn determinant(field: Field, matrix: &Matrix) -> u8 {
    let mut minors = [0; 1 << STRANDS];
    minors[0] = 1;
    for columns in 1_usize..1 << STRANDS {
        let row = columns.count_ones() as usize;
        minors[columns] = (1..=STRANDS)
            .map(|column| (column, columns & !(1 << (column - 1))))
            .filter(|(_, others)| *others != columns)
            .fold(0, |sum, (column, others)| sum ^ field.times(matrix[at(row, column)], minors[others]));
    }
    minors[(1 << STRANDS) - 1]
}

/// Does the matrix have an inverse? (Question 26.) Over a field it has one exactly if its determinant is not 0.
pub fn is_invertible(field: Field, matrix: &Matrix) -> bool {
    determinant(field, matrix) != 0
}
