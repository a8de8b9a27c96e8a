//! Key files typed by hand, for every operation that takes a key: accepted key files with their parts, and refused key
//! files with their answers.
//!
//! The field with 256 elements has x^8 = x^4 + x^3 + x^2 + 1, so 128 × 2 = 29. It has x (x^7 + x^3 + x^2 + x) = 1, so 2
//! and 142 are reciprocals. It has (x + 1)(x^7 + x^6 + x^5 + x^4 + x^2) = x^8 + x^4 + x^3 + x^2 = 1, so 3 and 244 are
//! reciprocals.

use std::ops::Range;

use reference::Field;

use crate::fixed::{entries, hex, identity, with_row, LISTS, TURNED_LISTS, T_VALUES};

/// An accepted key: its parts and its file. A matrix has all its 64 entries, row by row.
pub struct Key {
    pub name: &'static str,
    pub field: Field,
    pub t_values: [u8; 8],
    /// Labels, then positions.
    pub lists: [u8; 16],
    pub matrices: [Vec<u8>; 2],
    pub file: Vec<u8>,
}

/// The packed T-values 1 1 2 3 4 5 6 7, the packed list 0 to 7, and the packed list 7 to 0.
const PACKED_T_VALUES: &str = "08 44 32 14 C7";
const PACKED_LIST: &str = "05 39 77";
const PACKED_TURNED: &str = "FA C6 88";

/// The bytes of a key file that hold the first matrix, and those that hold the second.
fn places(field: Field) -> [Range<usize>; 2] {
    match field {
        Field::Gf32 => [8..44, 47..83],
        Field::Gf256 => [11..68, 71..128],
    }
}

/// A packed matrix of a small key file. `rows` has rows 1 and 2, and `last` has the last byte, which begins with the
/// last entry of row 8. The other rows are those of the identity matrix. Counted from 0, the ones in these rows are
/// entries 18, 27, 36, 45 and 54 of the 57 entries. A row has eight entries of five bits, so it fills five bytes.
fn packed(rows: &str, last: &str) -> String {
    format!("{rows} 00 02 00 00 00 00 00 10 00 00 00 00 00 80 00 00 00 00 04 00 00 00 00 00 20 {last}")
}

fn packed_identity() -> String {
    packed("08 00 00 00 00 00 40 00 00 00", "08")
}

/// A small key file from packed parts: N is 8 and q is 32.
fn small(t_values: &str, first: &str, labels: &str, second: &str) -> Vec<u8> {
    hex(&format!("08 00 20 {t_values} {first} {labels} {second}"))
}

/// A large key file: N is 8 and q is 256. Each T-value and each entry has one byte.
fn large(t_values: [u8; 8], matrices: &[Vec<u8>; 2], labels: &str) -> Vec<u8> {
    let [first, second] = matrices.each_ref().map(|matrix| entries(matrix));
    [&hex("08 01 00"), &t_values[..], &first, &hex(labels), &second].concat()
}

/// A key file with these T-values, the list 0 to 7, and the identity matrix twice. `packed` has the same T-values,
/// packed.
fn of_t_values(field: Field, t_values: [u8; 8], packed: &str) -> Vec<u8> {
    match field {
        Field::Gf32 => small(packed, &packed_identity(), PACKED_LIST, &packed_identity()),
        Field::Gf256 => large(t_values, &[identity(), identity()], PACKED_LIST),
    }
}

/// The plain key: T-values 1 1 2 3 4 5 6 7.
pub fn plain(field: Field) -> Vec<u8> {
    of_t_values(field, T_VALUES, PACKED_T_VALUES)
}

/// The plain key with T-values 1 1 2 2 4 5 6 7.
pub fn with_equal_t_values(field: Field) -> Vec<u8> {
    of_t_values(field, [1, 1, 2, 2, 4, 5, 6, 7], "08 44 22 14 C7")
}

/// A matrix that has at most one 1 in each row and otherwise zeros. `columns` names the column of the 1 in each row,
/// counted from 1. For a row of zeros it has 0.
pub fn ones(columns: [usize; 8]) -> Vec<u8> {
    columns.iter().flat_map(|one| (1..=8).map(move |column| u8::from(column == *one))).collect()
}

/// The identity matrix, with the first two entries of rows 1 and 2 replaced.
pub fn with_two_rows(first: [u8; 2], second: [u8; 2]) -> Vec<u8> {
    let mut matrix = identity();
    matrix[..2].copy_from_slice(&first);
    matrix[8..10].copy_from_slice(&second);
    matrix
}

/// A key in which any two parts of the same type differ, so that an exchange of two parts shows. Row 1 of the first
/// matrix is 1 to 8, and row 2 of the second is 0 1 31 30 29 28 27 26. The last entries are 9 and 10. In bits the two
/// rows are 00001 00010 00011 00100 00101 00110 00111 01000 and 00000 00001 11111 11110 11101 11100 11011 11010, and
/// the list is 111 110 101 100 011 010 001 000.
fn differing(field: Field) -> Key {
    let mut first = with_row(identity(), 1, [1, 2, 3, 4, 5, 6, 7, 8]);
    let mut second = with_row(identity(), 2, [0, 1, 31, 30, 29, 28, 27, 26]);
    (first[63], second[63]) = (9, 10);
    let matrices = [first, second];
    let (first, second) =
        (packed("08 86 42 98 E8 00 40 00 00 00", "48"), packed("08 00 00 00 00 00 7F EE F3 7A", "50"));
    let file = match field {
        Field::Gf32 => small(PACKED_T_VALUES, &first, PACKED_TURNED, &second),
        Field::Gf256 => large(T_VALUES, &matrices, PACKED_TURNED),
    };
    Key { name: "a key whose parts differ", field, t_values: T_VALUES, lists: TURNED_LISTS, matrices, file }
}

/// Two packed matrices. The first has rows 2 to 7, row 1 and row 8 of the identity matrix. The second has rows 7 to 1
/// and row 8. A row fills five bytes. A 1 in column 1 is 08 in the first byte. A 1 in column 2 or 3 is 40 or 02 in the
/// second byte, and in column 4 it is 10 in the third. A 1 in column 5 or 6 is 80 or 04 in the fourth byte, and in
/// column 7 or 8 it is 20 or 01 in the fifth.
const PACKED_PERMUTATIONS: [&str; 2] = [
    "00 40 00 00 00 00 02 00 00 00 00 00 10 00 00 00 00 00 80 00 00 00 00 04 00 00 00 00 00 20 08 00 00 00 00 08",
    "00 00 00 00 20 00 00 00 04 00 00 00 00 80 00 00 00 10 00 00 00 02 00 00 00 00 40 00 00 00 08 00 00 00 00 08",
];

/// A key with T-values 1 1 2 3 4 5 6 7 and the list 0 to 7.
fn listed(name: &'static str, field: Field, matrices: [Vec<u8>; 2], file: Vec<u8>) -> Key {
    Key { name, field, t_values: T_VALUES, lists: LISTS, matrices, file }
}

/// A key whose matrices are permutation matrices.
pub fn permutations() -> Key {
    let matrices = [[2, 3, 4, 5, 6, 7, 1, 8], [7, 6, 5, 4, 3, 2, 1, 8]].map(ones);
    let [first, second] = PACKED_PERMUTATIONS;
    listed("permutation matrices", Field::Gf32, matrices, small(PACKED_T_VALUES, first, PACKED_LIST, second))
}

/// A key whose matrices each differ from a singular matrix in one entry: 4 instead of 5, and 29 instead of 28. The
/// determinants are 1 × 4 + 2 × 16 = 4 + 5 = 1 and 3 × 29 + 1 × 1 = 3 × 28 + 3 + 1 = 3. The first ten bits of the rows
/// are 00001 00010, 10000 00100, 00011 00001 and 00001 11101.
fn next_to_singular() -> Key {
    let matrices = [with_two_rows([1, 2], [16, 4]), with_two_rows([3, 1], [1, 29])];
    let (first, second) =
        (packed("08 80 00 00 00 81 00 00 00 00", "08"), packed("18 40 00 00 00 0F 40 00 00 00", "08"));
    let file = small(PACKED_T_VALUES, &first, PACKED_LIST, &second);
    listed("rows 1 2 and 16 4, rows 3 1 and 1 29", Field::Gf32, matrices, file)
}

/// A large key with the rows 1 2 and 16 5. Over 256 elements their determinant is 5 + 2 × 16 = 5 + 32, which is not 0.
/// Over 32 elements it is 0.
fn with_inverse_in_the_larger() -> Key {
    let matrices = [with_two_rows([1, 2], [16, 5]), identity()];
    let file = large(T_VALUES, &matrices, PACKED_LIST);
    listed("rows 1 2 and 16 5", Field::Gf256, matrices, file)
}

/// A large key with T-values and entries over 31.
fn high() -> Key {
    let t_values = [1, 1, 32, 33, 64, 128, 254, 255];
    let matrices = [with_row(identity(), 1, [1, 32, 255, 128, 64, 200, 100, 33]), identity()];
    let file = large(t_values, &matrices, PACKED_LIST);
    Key { t_values, ..listed("numbers over 31", Field::Gf256, matrices, file) }
}

/// The accepted keys.
pub fn accepted() -> Vec<Key> {
    let plain = |field| listed("the plain key", field, [identity(), identity()], plain(field));
    let both = Field::BOTH.map(differing).into_iter().chain(Field::BOTH.map(plain));
    both.chain([permutations(), next_to_singular(), with_inverse_in_the_larger(), high()]).collect()
}

/// The refused key files, each with a name and its answer.
pub fn refused() -> Vec<(String, Vec<u8>, u8)> {
    let small = [(0, 9, 2), (2, 33, 3), (7, 0xC0, 4), (3, 0x10, 5), (46, 0x76, 6), (82, 0x0C, 7)];
    let large =
        [(0, 9, 2), (1, 0, 3), (2, 1, 3), (2, 32, 3), (10, 0, 4), (3, 255, 5), (4, 0x20, 5), (70, 0x76, 6)];
    let mut keys = vec![("a key of no bytes".to_string(), vec![], 1)];
    for (field, changes) in [(Field::Gf32, &small[..]), (Field::Gf256, &large)] {
        for (place, byte, answer) in changes {
            let mut file = plain(field);
            file[*place] = *byte;
            keys.push((format!("{byte:02X} at {place} of {}", file.len()), file, *answer));
        }
    }
    let others = of_other_sizes().into_iter().chain(without_inverse());
    keys.extend(others.map(|(name, file, answer)| (name.to_string(), file, answer)));
    keys
}

/// Keys of one size with the q of the other size, and keys with a length that no key has.
fn of_other_sizes() -> Vec<(&'static str, Vec<u8>, u8)> {
    let with_q = |file: &[u8], q: [u8; 2]| [&file[..1], &q, &file[3..]].concat();
    let [small, large] = Field::BOTH.map(plain);
    vec![
        ("128 bytes with q = 32", with_q(&large, [0, 32]), 3),
        ("83 bytes with q = 256", with_q(&small, [1, 0]), 3),
        ("the large key cut at 83", large[..83].to_vec(), 3),
        ("the small key and 45 zeros", [&small[..], &[0; 45]].concat(), 3),
        ("127 bytes", large[..127].to_vec(), 1),
        ("129 bytes", [&large[..], &[0]].concat(), 1),
        ("84 bytes", large[..84].to_vec(), 1),
        ("211 bytes", [&small[..], &large].concat(), 1),
    ]
}

/// Key files with a matrix that has no inverse (document 02, section 1): a blank matrix, or rows 1 2 and 128 29 of a
/// large key, whose determinant is 29 + 2 × 128 = 0. Two blank keys also have a filler bit that is 1. Their answer is
/// 7, because question 7 comes before question 26.
fn without_inverse() -> Vec<(&'static str, Vec<u8>, u8)> {
    let blank = |field: Field, which: &[usize]| {
        let mut file = plain(field);
        which.iter().for_each(|place| file[places(field)[*place].clone()].fill(0));
        file
    };
    let filled = |place: usize| {
        let mut file = blank(Field::Gf32, &[0, 1]);
        file[place] = 1;
        file
    };
    let singular = large(T_VALUES, &[identity(), with_two_rows([1, 2], [128, 29])], PACKED_LIST);
    vec![
        ("the blank key", blank(Field::Gf32, &[0, 1]), 26),
        ("a blank first matrix", blank(Field::Gf32, &[0]), 26),
        ("a blank second matrix", blank(Field::Gf32, &[1]), 26),
        ("a blank second matrix of the large key", blank(Field::Gf256, &[1]), 26),
        ("rows 1 2 and 128 29", singular, 26),
        ("the blank key with first filler", filled(43), 7),
        ("the blank key with second filler", filled(82), 7),
    ]
}
