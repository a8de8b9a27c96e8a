//! Code that the test files share: bytes typed in hexadecimal, the plain keys, and checks of operations that write
//! words.

#![allow(dead_code, unused_imports)]

use std::ops::Range;

pub use reference::testkit::Random;
use reference::{bits, file_entries, Field, Matrix, Written};

/// Bytes typed as hexadecimal numbers with spaces between.
pub fn hex(text: &str) -> Vec<u8> {
    text.split_whitespace().map(|byte| u8::from_str_radix(byte, 16).expect("a byte")).collect()
}

/// The T-values of document 01's slips.
pub const PLAIN_T_VALUES: [u8; 8] = [1, 1, 2, 3, 4, 5, 6, 7];

/// The list 0 to 7.
pub const PLAIN_LIST: [u8; 8] = [0, 1, 2, 3, 4, 5, 6, 7];

/// The identity matrix in a key file of 83 bytes, worked out by hand. The entries 0, 9, 18, .., 54 and 56 of the 57 are
/// ones. So the bits 4, 49, 94, 139, 184, 229, 274 and 284 of the 288 are set.
pub const PACKED_IDENTITY: &str = "08 00 00 00 00 00 40 00 00 00 00 02 00 00 00 00 00 10 \
                                   00 00 00 00 00 80 00 00 00 00 04 00 00 00 00 00 20 08";

/// The identity matrix in a key file of 128 bytes. An entry is a byte. The entries 0, 9, 18, .., 54 and 56 of the 57
/// are ones.
pub const LARGE_IDENTITY: &str = "01 00 00 00 00 00 00 00 00 01 00 00 00 00 00 00 00 00 01 00 00 00 00 00 \
                                  00 00 00 01 00 00 00 00 00 00 00 00 01 00 00 00 00 00 00 00 00 01 00 00 \
                                  00 00 00 00 00 00 01 00 01";

/// The 57 entries of the identity matrix that a key file holds.
pub fn identity_entries() -> [u8; 57] {
    let mut entries = [0; 57];
    for place in [0, 9, 18, 27, 36, 45, 54, 56] {
        entries[place] = 1;
    }
    entries
}

/// A key of 83 bytes: both matrices are the identity, the list is 0 to 7, and `packed` is the five bytes of T-values.
pub fn key_with_t_values(packed: &str) -> Vec<u8> {
    hex(&format!("08 00 20 {packed} {PACKED_IDENTITY} 05 39 77 {PACKED_IDENTITY}"))
}

/// A key of 128 bytes over the larger field (document 02, section 7): q is 256, both matrices are the identity, the
/// list is 0 to 7, and the T-values are eight bytes.
pub fn large_key_with_t_values(t_values: &str) -> Vec<u8> {
    hex(&format!("08 01 00 {t_values} {LARGE_IDENTITY} 05 39 77 {LARGE_IDENTITY}"))
}

/// The plain key of document 01.
pub fn plain_key() -> Vec<u8> {
    key_with_t_values("08 44 32 14 C7")
}

/// The key over the larger field that has the T-values, the list and the matrices of [`plain_key`].
pub fn large_plain_key() -> Vec<u8> {
    large_key_with_t_values("01 01 02 03 04 05 06 07")
}

/// The plain key over a field.
pub fn plain_key_over(field: Field) -> Vec<u8> {
    match field {
        Field::Gf32 => plain_key(),
        Field::Gf256 => large_plain_key(),
    }
}

/// The byte ranges of the two matrices in a key file over a field.
pub fn matrix_bytes(field: Field) -> [Range<usize>; 2] {
    match field {
        Field::Gf32 => [8..44, 47..83],
        Field::Gf256 => [11..68, 71..128],
    }
}

/// The plain key over a field, but with both matrices zero (document 02, section 1).
pub fn blank_key_over(field: Field) -> Vec<u8> {
    let mut key = plain_key_over(field);
    matrix_bytes(field).into_iter().for_each(|part| key[part].fill(0));
    key
}

/// The plain key of document 01, but with both matrices zero.
pub fn blank_key() -> Vec<u8> {
    blank_key_over(Field::Gf32)
}

/// The bytes of a matrix in a key file over a field. The matrix must have the shape of a key's matrix.
fn packed(field: Field, matrix: &Matrix) -> Vec<u8> {
    let (width, filler) = match field {
        Field::Gf32 => (5, 3),
        Field::Gf256 => (8, 0),
    };
    let mut bits = Vec::new();
    for entry in file_entries(matrix) {
        bits::push(&mut bits, entry.into(), width);
    }
    bits::push(&mut bits, 0, filler);
    bits::to_bytes(&bits)
}

/// The plain key over a field, but with these matrices. The matrices need not have inverses. Tests use such a key as an
/// input, never as an expected value.
pub fn key_with_matrices(field: Field, first: &Matrix, second: &Matrix) -> Vec<u8> {
    let mut key = plain_key_over(field);
    for (part, matrix) in matrix_bytes(field).into_iter().zip([first, second]) {
        key[part].copy_from_slice(&packed(field, matrix));
    }
    key
}

/// The word file of these codes, in the layout of the papers. Tests make their inputs with it.
pub fn file(codes: &[u8]) -> Vec<u8> {
    let mut bytes = vec![(codes.len() / 256) as u8, (codes.len() % 256) as u8];
    bytes.extend(codes.chunks(2).map(|two| two[0] * 16 + two.get(1).unwrap_or(&0)));
    bytes
}

/// The word file that `write` wrote. `write` must answer 0 and leave the output after the file as it was.
pub fn output(write: impl Fn(&mut [u8]) -> Written) -> Vec<u8> {
    let mut out = vec![0xAA; 5_010];
    let written = write(&mut out);
    assert_eq!(written.answer, 0);
    assert!(out[written.bytes..].iter().all(|byte| *byte == 0xAA), "bytes after the word changed");
    out.truncate(written.bytes);
    out
}

/// Checks that `write` refuses with this answer, reports 0 bytes and leaves the output as it was.
pub fn refuses(expected: u8, size: usize, write: impl Fn(&mut [u8]) -> Written) {
    let mut out = vec![0xAA; size];
    assert_eq!(write(&mut out), Written { answer: expected, bytes: 0 });
    assert!(out.iter().all(|byte| *byte == 0xAA), "a refusal changed the output");
}
