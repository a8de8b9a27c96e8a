//! Key files (document 01, "Files"; document 02, sections 1 and 7; source 000, sections 10 and 10.1).
//!
//! A key file holds N, q, eight T-values, the matrix of Pub(S), the list of Pub(S), and the matrix of Pub(S'). It holds
//! 57 entries of each matrix. Over the field with 32 elements an entry has five bits, and three bits of filler follow
//! each matrix: the file has 664 bits, that is 83 bytes. Over the field with 256 elements an entry has eight bits, and
//! there is no filler: the file has 1,024 bits, that is 128 bytes.

use std::ops::Range;

use crate::bits;
use crate::field::Field;
use crate::matrix::{at, is_invertible, Matrix};
use crate::pair::{Labels, Pair, TValues};
use crate::questions::{first_no, is_each_label_once, Question};
use crate::STRANDS;

/// The number of entries of a matrix that a key file holds: rows 1 to 7 whole, then the last entry of row 8.
pub const PACKED_ENTRIES: usize = 57;

/// The entries of a matrix in the order of the file.
pub type Entries = [u8; PACKED_ENTRIES];

/// The bits of a label.
const LABEL_BITS: usize = 3;

/// The bits of N in a file.
const N: Range<usize> = 0..8;

/// The bits of q in a file.
const Q: Range<usize> = 8..24;

/// The number of bits of an element, and the bits of each part of a file after N and q.
#[derive(Debug, PartialEq, Eq)]
pub struct Layout {
    pub element: usize,
    pub t_values: Range<usize>,
    pub first: Range<usize>,
    pub first_filler: Range<usize>,
    pub labels: Range<usize>,
    pub second: Range<usize>,
    pub second_filler: Range<usize>,
}

/// The layout of a key file over the field with 32 elements.
const SMALL: Layout = Layout {
    element: 5,
    t_values: 24..64,
    first: 64..349,
    first_filler: 349..352,
    labels: 352..376,
    second: 376..661,
    second_filler: 661..664,
};

/// The layout of a key file over the field with 256 elements. The filler has no bits.
const LARGE: Layout = Layout {
    element: 8,
    t_values: 24..88,
    first: 88..544,
    first_filler: 544..544,
    labels: 544..568,
    second: 568..1_024,
    second_filler: 1_024..1_024,
};

/// The layout of a key file over a field.
pub fn layout(field: Field) -> &'static Layout {
    match field {
        Field::Gf32 => &SMALL,
        Field::Gf256 => &LARGE,
    }
}

/// The answer, and the key: its field, T-values, Pub(S) and the matrix of Pub(S'). On a refusal the field is the one
/// with 32 elements, and every number of the key is 0.
#[derive(Clone, Copy, Debug, PartialEq, Eq)]
pub struct Key {
    pub answer: u8,
    pub field: Field,
    pub t_values: TValues,
    pub pair: Pair,
    pub second: Matrix,
}

impl Key {
    /// The key of a refusal.
    pub fn refusal(answer: u8) -> Key {
        Key { answer, field: Field::Gf32, t_values: [0; STRANDS], pair: Pair::ZEROS, second: [0; 64] }
    }
}

/// The number in a part of the file.
fn number(file: &[u8], part: &Range<usize>) -> u16 {
    bits::number(&bits::of_bytes(file)[part.clone()])
}

/// The numbers in a part of the file, `width` bits each.
fn numbers(file: &[u8], part: &Range<usize>, width: usize) -> Vec<u8> {
    bits::numbers(&bits::of_bytes(file)[part.clone()], width)
}

/// The field whose keys have the file's length, if there is one.
fn field_of_length(file: &[u8]) -> Option<Field> {
    Field::BOTH.into_iter().find(|field| field.key_bytes() == file.len())
}

/// The field of a file of 83 or 128 bytes.
fn field_of(file: &[u8]) -> Field {
    field_of_length(file).expect("question 1 accepts only files of 83 or 128 bytes")
}

/// The T-values of a file of 83 or 128 bytes.
fn t_values(file: &[u8]) -> Vec<u8> {
    let layout = layout(field_of(file));
    numbers(file, &layout.t_values, layout.element)
}

/// The list of labels of a file of 83 or 128 bytes.
fn labels(file: &[u8]) -> Vec<u8> {
    numbers(file, &layout(field_of(file)).labels, LABEL_BITS)
}

/// Are all filler bits of a file of 83 or 128 bytes zero? A file of 128 bytes has none.
fn is_filled_with_zeros(file: &[u8]) -> bool {
    let layout = layout(field_of(file));
    [&layout.first_filler, &layout.second_filler].into_iter().all(|filler| number(file, filler) == 0)
}

/// The places in a matrix of the entries that a file holds, in the order of the file.
fn entry_places() -> impl Iterator<Item = usize> {
    let rows = (1..STRANDS).flat_map(|row| (1..=STRANDS).map(move |column| at(row, column)));
    rows.chain([at(STRANDS, STRANDS)])
}

/// The whole matrix with these entries. The entries of row 8 that a file leaves out are 0.
pub fn key_matrix(entries: &[u8]) -> Matrix {
    let mut matrix = [0; 64];
    for (place, entry) in entry_places().zip(entries) {
        matrix[place] = *entry;
    }
    matrix
}

/// The whole matrices of a file of 83 or 128 bytes.
fn matrices(file: &[u8]) -> [Matrix; 2] {
    let layout = layout(field_of(file));
    [&layout.first, &layout.second].map(|part| key_matrix(&numbers(file, part, layout.element)))
}

/// The questions of a key file.
const QUESTIONS: [Question<[u8]>; 8] = [
    (1, |file| field_of_length(file).is_some()),
    (2, |file| number(file, &N) == 8),
    (3, |file| number(file, &Q) == field_of(file).size()),
    (4, |file| !t_values(file).contains(&0)),
    (5, |file| t_values(file)[..2] == [1, 1]),
    (6, |file| is_each_label_once(&labels(file))),
    (7, |file| is_filled_with_zeros(file)),
    (26, |file| matrices(file).iter().all(|matrix| is_invertible(field_of(file), matrix))),
];

/// The answer to a key file's questions: 1 to 7, 26, or 0.
pub fn key_answer(file: &[u8]) -> u8 {
    first_no(&QUESTIONS, file)
}

/// Eight numbers as an array.
fn eight(numbers: &[u8]) -> [u8; STRANDS] {
    let mut array = [0; STRANDS];
    array.copy_from_slice(numbers);
    array
}

/// Reads a key. Answers: 1 to 7, 26.
pub fn read_key(file: &[u8]) -> Key {
    let answer = key_answer(file);
    if answer != 0 {
        return Key::refusal(answer);
    }
    let [first, second] = matrices(file);
    let pair = Pair::of(first, eight(&labels(file)));
    Key { answer, field: field_of(file), t_values: eight(&t_values(file)), pair, second }
}

/// The entries of a matrix that a key file holds: rows 1 to 7 whole, then the last entry of row 8.
pub fn file_entries(matrix: &Matrix) -> Entries {
    let mut entries = [0; PACKED_ENTRIES];
    for (entry, place) in entries.iter_mut().zip(entry_places()) {
        *entry = matrix[place];
    }
    entries
}

/// The input of the key writer's questions. `room` is the length of its output, in bytes.
struct Parts {
    room: usize,
    field: Field,
    t_values: TValues,
    labels: Labels,
    matrices: [Entries; 2],
}

/// The questions of the key writer.
const WRITER_QUESTIONS: [Question<Parts>; 6] = [
    (16, |parts| parts.room >= parts.field.key_bytes()),
    (17, |parts| {
        let entries = parts.matrices.iter().flatten();
        parts.t_values.iter().chain(entries).all(|number| parts.field.has(*number))
    }),
    (4, |parts| !parts.t_values.contains(&0)),
    (5, |parts| parts.t_values[..2] == [1, 1]),
    (6, |parts| is_each_label_once(&parts.labels)),
    (26, |parts| parts.matrices.iter().all(|entries| is_invertible(parts.field, &key_matrix(entries)))),
];

/// Appends the numbers, `width` bits each.
fn push_all(bits: &mut Vec<bool>, numbers: &[u8], width: usize) {
    for number in numbers {
        bits::push(bits, (*number).into(), width as u32);
    }
}

/// The bytes of a key file.
fn key_file(parts: &Parts) -> Vec<u8> {
    let layout = layout(parts.field);
    let [first, second] = &parts.matrices;
    let mut bits = Vec::new();
    bits::push(&mut bits, 8, 8);
    bits::push(&mut bits, parts.field.size(), 16);
    push_all(&mut bits, &parts.t_values, layout.element);
    push_all(&mut bits, first, layout.element);
    bits::push(&mut bits, 0, layout.first_filler.len() as u32);
    push_all(&mut bits, &parts.labels, LABEL_BITS);
    push_all(&mut bits, second, layout.element);
    bits::push(&mut bits, 0, layout.second_filler.len() as u32);
    bits::to_bytes(&bits)
}

/// Writes a key over `field` into the first 83 or 128 bytes of `out`. Answers: 16, 17, 4, 5, 6, 26.
pub fn write_key(
    field: Field,
    t_values: &TValues,
    labels: &Labels,
    first: &Entries,
    second: &Entries,
    out: &mut [u8],
) -> u8 {
    let matrices = [*first, *second];
    let parts = Parts { room: out.len(), field, t_values: *t_values, labels: *labels, matrices };
    let answer = first_no(&WRITER_QUESTIONS, &parts);
    if answer == 0 {
        let file = key_file(&parts);
        out[..file.len()].copy_from_slice(&file);
    }
    answer
}
