//! Matrices, pairs and halves of the library. The library stores a matrix by columns, the reference by rows. Only this
//! module converts between the two.

use reference::matrix::at;
use reference::{Field, Half, Matrix, Pair};

use crate::exported;

/// Each row and column, counted from 1.
fn places() -> impl Iterator<Item = (usize, usize)> {
    (1..=8).flat_map(|row| (1..=8).map(move |column| (row, column)))
}

/// A matrix from the library, by rows.
pub fn by_rows(columns: &[u8; 64]) -> Matrix {
    let mut rows = [0; 64];
    places().for_each(|(row, column)| rows[at(row, column)] = columns[walnut::place(row, column)]);
    rows
}

/// A matrix for the library, by columns.
pub fn by_columns(rows: &Matrix) -> [u8; 64] {
    let mut columns = [0; 64];
    places().for_each(|(row, column)| columns[walnut::place(row, column)] = rows[at(row, column)]);
    columns
}

/// A pair from the library.
pub fn pair_of(pair: exported::Pair) -> Pair {
    Pair { matrix: by_rows(&pair.matrix), labels: pair.labels, positions: pair.positions }
}

/// A pair for the library.
pub fn lent(pair: &Pair) -> exported::Pair {
    exported::Pair { matrix: by_columns(&pair.matrix), labels: pair.labels, positions: pair.positions }
}

/// The two lists of a pair, one after the other: labels, then positions.
pub fn lists(pair: &Pair) -> Vec<u8> {
    [pair.labels, pair.positions].concat()
}

/// The pair of a matrix and the two lists, one after the other.
pub fn pair_with(matrix: Matrix, lists: [u8; 16]) -> Pair {
    let [labels, positions] = [0, 8].map(|from| std::array::from_fn(|place| lists[from + place]));
    Pair { matrix, labels, positions }
}

/// A half from the library.
pub fn half_of(half: exported::Half) -> Half {
    let field = if half.large { Field::Gf256 } else { Field::Gf32 };
    Half { field, t_values: half.t_values, pair: pair_of(half.pair), target: by_rows(&half.target) }
}

/// A half for the library.
pub fn handed(half: &Half) -> exported::Half {
    let (large, target) = (half.field == Field::Gf256, by_columns(&half.target));
    exported::Half { large, t_values: half.t_values, pair: lent(&half.pair), target }
}

/// A half's T-values, matrix, lists and target.
pub fn half_parts(half: &Half) -> Vec<Vec<u8>> {
    [&half.t_values[..], &half.pair.matrix, &lists(&half.pair), &half.target].map(<[u8]>::to_vec).to_vec()
}

/// A pair's matrix and lists, one after the other.
pub fn pair_bytes(pair: &Pair) -> Vec<u8> {
    [&pair.matrix[..], &lists(pair)].concat()
}

#[cfg(test)]
mod tests {
    /// Columns 1 to 4 after b3 from the start, as they lie in the library's memory. Row 3 has 2, 2, 1 in columns 2 to 4
    /// (document 01's slip). The other entries are those of the identity matrix.
    #[test]
    fn columns_lie_together() {
        let mut pair = walnut::Pair::start();
        assert!(pair.multiply(walnut::Field::Gf32, &[1, 1, 2, 3, 4, 5, 6, 7], 2).is_ok());
        assert_eq!(pair.matrix[..8], [1, 0, 0, 0, 0, 0, 0, 0]);
        assert_eq!(pair.matrix[8..16], [0, 1, 2, 0, 0, 0, 0, 0]);
        assert_eq!(pair.matrix[16..24], [0, 0, 2, 0, 0, 0, 0, 0]);
        assert_eq!(pair.matrix[24..32], [0, 0, 1, 1, 0, 0, 0, 0]);
    }
}
