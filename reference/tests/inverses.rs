//! Which matrices have an inverse (document 02, section 1), over both fields (section 7). The tests compare
//! determinants with elimination, and read and write keys with matrices of every rank.

mod common;

use common::{blank_key_over, hex, key_with_matrices, plain_key_over, Random, PLAIN_LIST, PLAIN_T_VALUES};
use reference::matrix::{at, determinant, identity, is_invertible};
use reference::testkit::inverse_matrix;
use reference::testkit::matrices::{has_key_shape, rank};
use reference::{
    cloaks, file_entries, matrix_product, read_key, verify, write_key, Cloak, Field, Key, Matrix, Pair,
};

const ROUNDS: usize = 300;

/// A random matrix with any entries, half of the time with many zeros.
fn matrix(random: &mut Random, field: Field) -> Matrix {
    let few = random.one_in(2);
    random.elements(field).map(|entry: u8| if few && !random.one_in(4) { 0 } else { entry })
}

/// Every round from 0 to `count` - 1, once with each field.
fn rounds(count: usize) -> impl Iterator<Item = (usize, Field)> {
    (0..count).flat_map(|round| Field::BOTH.map(|field| (round, field)))
}

/// The identity matrix with its lower right square replaced, given row by row.
fn with_square<const SIZE: usize>(rows: [[u8; SIZE]; SIZE]) -> Matrix {
    let mut matrix = identity();
    for (row, entries) in (9 - SIZE..).zip(rows) {
        for (column, entry) in (9 - SIZE..).zip(entries) {
            matrix[at(row, column)] = entry;
        }
    }
    matrix
}

// ---- Determinants ----

/// Determinants of two and three rows by their formulas, ad + bc and the six terms. The rest of the matrix is the
/// identity.
#[test]
fn small_determinants() {
    let mut random = Random::seeded(41);
    for (_, field) in rounds(ROUNDS) {
        let times = |left, right| field.times(left, right);
        let [a, b, c, d, e, f, g, h, i] = random.elements::<9>(field);
        assert_eq!(determinant(field, &with_square([[a, b], [c, d]])), times(a, d) ^ times(b, c));
        let terms = [(a, e, i), (b, f, g), (c, d, h), (c, e, g), (b, d, i), (a, f, h)];
        let sum = terms.into_iter().fold(0, |sum, (x, y, z)| sum ^ times(times(x, y), z));
        assert_eq!(determinant(field, &with_square([[a, b, c], [d, e, f], [g, h, i]])), sum);
    }
}

#[test]
fn determinants_of_plain_matrices() {
    let mut random = Random::seeded(42);
    for (_, field) in rounds(ROUNDS) {
        let determinant = |matrix: &Matrix| determinant(field, matrix);
        assert_eq!((determinant(&identity()), determinant(&[0; 64]), determinant(&[7; 64])), (1, 0, 0));
        assert_eq!(determinant(&random.permutation_matrix()), 1);
        let mut triangular = random.elements(field);
        for (row, column) in (2..=8).flat_map(|row| (1..row).map(move |column| (row, column))) {
            triangular[at(row, column)] = 0;
        }
        let diagonal = (1..=8).map(|place| triangular[at(place, place)]);
        let diagonal = diagonal.fold(1, |product, entry| field.times(product, entry));
        assert_eq!(determinant(&triangular), diagonal);
    }
}

#[test]
fn products_multiply_determinants() {
    let mut random = Random::seeded(43);
    for (_, field) in rounds(ROUNDS) {
        let (left, right) = (matrix(&mut random, field), matrix(&mut random, field));
        let product = matrix_product(field, &left, &right);
        let [left, right] = [left, right].map(|matrix| determinant(field, &matrix));
        assert_eq!(determinant(field, &product), field.times(left, right));
    }
}

/// A determinant is not 0 exactly if elimination finds an inverse, and exactly if elimination finds the rank 8. The
/// inverse is a left inverse and a right inverse.
#[test]
fn determinants_agree_with_elimination() {
    let mut random = Random::seeded(44);
    let mut ranks = [[0; 9]; 2];
    for (round, field) in rounds(10 * ROUNDS) {
        let matrix = match round % 3 {
            0 => matrix(&mut random, field),
            1 => random.key_matrix_of_rank(field, round / 3 % 9),
            _ => random.sparse_key_matrix(field),
        };
        let (inverse, rank) = (inverse_matrix(field, &matrix), rank(field, &matrix));
        assert_eq!(is_invertible(field, &matrix), inverse.is_some());
        assert_eq!(rank == 8, inverse.is_some());
        ranks[usize::from(field == Field::Gf256)][rank] += 1;
        if let Some(inverse) = inverse {
            assert_eq!(matrix_product(field, &matrix, &inverse), identity());
            assert_eq!(matrix_product(field, &inverse, &matrix), identity());
        }
    }
    assert!(ranks.iter().flatten().all(|matrices| *matrices > ROUNDS / 10), "{ranks:?}");
    for field in Field::BOTH {
        assert_eq!((rank(field, &identity()), rank(field, &[0; 64]), rank(field, &[7; 64])), (8, 0, 1));
    }
}

// ---- Keys ----

/// The answer to a key with these matrices. Reader, writer, verdict and cloaking must give the same answer. On a
/// refusal the writer must leave its output unchanged, and the reader must return zeros and the field with 32 elements.
fn answer(field: Field, first: &Matrix, second: &Matrix) -> u8 {
    let key = key_with_matrices(field, first, second);
    let mut out = vec![0xAA; key.len()];
    let (entries, others) = (file_entries(first), file_entries(second));
    let answer = write_key(field, &PLAIN_T_VALUES, &PLAIN_LIST, &entries, &others, &mut out);
    let read = read_key(&key);
    if answer == 0 {
        let pair = Pair::of(*first, PLAIN_LIST);
        assert_eq!(read, Key { answer, field, t_values: PLAIN_T_VALUES, pair, second: *second });
        assert_eq!(out, key);
    } else {
        let (field, pair) = (Field::Gf32, Pair::ZEROS);
        assert_eq!(read, Key { answer, field, t_values: [0; 8], pair, second: [0; 64] });
        assert_eq!(out, vec![0xAA; key.len()]);
        assert_eq!(verify(&key, &[], &[]), answer);
        assert_eq!(cloaks(&key, &[], &[]), Cloak { answer, yes: false });
    }
    assert_eq!(cloaks(&key, &PLAIN_LIST, &hex("00 00")), Cloak { answer, yes: answer == 0 });
    answer
}

/// A key is refused if its first matrix, its second or both have a rank below 8, whether the last entry is zero or not.
/// Matrices of rank 8 are accepted.
#[test]
fn keys_of_every_rank() {
    let mut random = Random::seeded(45);
    for (wanted, field) in rounds(9) {
        let expected = if wanted == 8 { 0 } else { 26 };
        let mut last_entries = [0; 2];
        for _ in 0..ROUNDS / 10 {
            let [matrix, other] = [0; 2].map(|_| random.key_matrix_of_rank(field, wanted));
            let good = random.invertible_key_matrix(field);
            assert!(has_key_shape(&matrix) && rank(field, &matrix) == wanted);
            assert_eq!(answer(field, &matrix, &good), expected);
            assert_eq!(answer(field, &good, &matrix), expected);
            assert_eq!(answer(field, &matrix, &other), expected);
            assert_eq!(answer(field, &good, &good), 0);
            last_entries[usize::from(matrix[at(8, 8)] != 0)] += 1;
        }
        let [zero, other] = last_entries.map(|matrices| matrices > 0);
        assert_eq!((zero, other), (wanted < 8, wanted > 0));
    }
}

/// The identity matrix with one entry changed has an inverse. Exception: a one of the diagonal became zero.
#[test]
fn identity_with_one_entry_changed() {
    let places = (1..=7).flat_map(|row| (1..=8).map(move |column| (row, column)));
    for (row, column) in places.chain([(8, 8)]) {
        for (field, entry) in [0, 1, 2, 31]
            .map(|entry| (Field::Gf32, entry))
            .into_iter()
            .chain([0, 1, 2, 31, 32, 128, 255].map(|entry| (Field::Gf256, entry)))
        {
            let mut matrix = identity();
            matrix[at(row, column)] = entry;
            let expected = if row == column && entry == 0 { 26 } else { 0 };
            let answers = (answer(field, &matrix, &identity()), answer(field, &identity(), &matrix));
            assert_eq!(answers, (expected, expected));
        }
    }
}

/// Permutation matrices are accepted. A permutation matrix is refused after column 8 has changed places with another
/// column, so that row 8 is zero. Random matrices without an inverse are refused too.
#[test]
fn keys_of_permutations() {
    let mut random = Random::seeded(46);
    for (_, field) in rounds(ROUNDS / 10) {
        let answer = |first: &Matrix, second: &Matrix| answer(field, first, second);
        let (matrix, other) = (random.permutation_matrix(), random.permutation_matrix());
        assert_eq!(answer(&matrix, &other), 0);
        let mut moved = matrix;
        let column = random.within(1, 7);
        (1..=7).for_each(|row| moved.swap(at(row, column), at(row, 8)));
        moved[at(8, 8)] = 0;
        assert_eq!((answer(&moved, &other), answer(&other, &moved)), (26, 26));
        let singular = random.singular_key_matrix(field);
        assert!(has_key_shape(&singular) && rank(field, &singular) < 8);
        assert_eq!((answer(&singular, &other), answer(&other, &singular)), (26, 26));
    }
}

/// The blank key, and plain keys with one matrix of zeros.
#[test]
fn keys_of_zeros() {
    for field in Field::BOTH {
        assert_eq!(key_with_matrices(field, &[0; 64], &[0; 64]), blank_key_over(field));
        assert_eq!(key_with_matrices(field, &identity(), &identity()), plain_key_over(field));
        assert_eq!(answer(field, &[0; 64], &[0; 64]), 26);
        assert_eq!(answer(field, &[0; 64], &identity()), 26);
        assert_eq!(answer(field, &identity(), &[0; 64]), 26);
        assert_eq!(answer(field, &identity(), &identity()), 0);
    }
}
