//! The worked examples of the papers at strength 128. `larger.rs` has strength 256. Expected values are typed from the
//! papers, or follow from the papers by the reasoning beside them. The code under test computed none of them.

mod common;

use common::{
    blank_key, file, hex, identity_entries, key_with_t_values, output, plain_key, refuses, PACKED_IDENTITY,
    PLAIN_LIST, PLAIN_T_VALUES,
};
use reference::digest::half_byte_braid;
use reference::letter::{is_letter, Letter};
use reference::matrix::at;
use reference::Field::Gf32;
use reference::{
    cloaks, code_part, encode_digest, file_entries, free_reduce, letter_at, letters, matrix_product,
    multiply, product, read_key, read_word, reciprocal, start, write_key, write_word, Cloak, Element, Key,
    Pair, Word, WordReader, Written,
};

/// The starting pair carried by letters, written as in source 004: 3 is b3, -3 is its inverse.
fn carried(t_values: &[u8; 8], braid: &[i8]) -> Pair {
    carried_from(start(), t_values, braid)
}

fn carried_from(mut pair: Pair, t_values: &[u8; 8], braid: &[i8]) -> Pair {
    for letter in braid {
        assert_eq!(multiply(&mut pair, Gf32, t_values, code(*letter)), 0);
    }
    pair
}

fn code(letter: i8) -> u8 {
    letter.unsigned_abs() - 1 + if letter < 0 { 8 } else { 0 }
}

fn codes(braid: &[i8]) -> Vec<u8> {
    braid.iter().map(|letter| code(*letter)).collect()
}

/// The matrix with these rows.
fn rows(rows: [[u8; 8]; 8]) -> [u8; 64] {
    let mut matrix = [0; 64];
    matrix.copy_from_slice(&rows.concat());
    matrix
}

fn yes(key: &[u8], list: [u8; 8], word: &[u8]) -> bool {
    let Cloak { answer, yes } = cloaks(key, &list, word);
    assert_eq!(answer, 0);
    yes
}

// ---- The field (document 01, "The field" and the slips) ----

#[test]
fn products_and_reciprocals_of_the_slips() {
    assert_eq!(product(Gf32, 16, 2), Element { answer: 0, value: 5 });
    assert_eq!(product(Gf32, 31, 31), Element { answer: 0, value: 18 });
    assert_eq!(reciprocal(Gf32, 3), Element { answer: 0, value: 28 });
}

/// x (x^4 + x) = x^5 + x^2 = 1, so 2 and 18 are reciprocals. (x^2 + x + 1)(x^3 + x^2) = x^5 + x^2 = 1, so 7 and 12 are
/// reciprocals. 31 × 31 = 18 and 2 × 18 = 1, so the reciprocal of 31 is 2 × 31 = 27.
#[test]
fn products_that_follow_by_hand() {
    assert_eq!(product(Gf32, 2, 18).value, 1);
    assert_eq!(reciprocal(Gf32, 2).value, 18);
    assert_eq!(reciprocal(Gf32, 7).value, 12);
    assert_eq!(product(Gf32, 2, 31).value, 27);
    assert_eq!(reciprocal(Gf32, 31).value, 27);
    assert_eq!(reciprocal(Gf32, 28).value, 3);
    assert_eq!(reciprocal(Gf32, 1), Element { answer: 0, value: 1 });
    assert_eq!(product(Gf32, 0, 31), Element { answer: 0, value: 0 });
}

#[test]
fn field_refusals() {
    for (left, right) in [(32, 0), (0, 32), (255, 255), (31, 32)] {
        assert_eq!(product(Gf32, left, right), Element { answer: 17, value: 0 });
    }
    assert_eq!(reciprocal(Gf32, 32), Element { answer: 17, value: 0 });
    assert_eq!(reciprocal(Gf32, 255), Element { answer: 17, value: 0 });
    assert_eq!(reciprocal(Gf32, 0), Element { answer: 4, value: 0 });
}

// ---- Letters and pairs (document 01; source 003, section 2; source 004, sections 5.2, 6.4 and 8.4) ----

#[test]
fn codes_of_letters() {
    for generator in 1..=7 {
        let letter = Letter { generator, inverse: false };
        assert_eq!(letter.code(), generator as u8 - 1);
        assert_eq!(letter.inverted().code(), generator as u8 + 7);
        assert_eq!(Letter::from_code(letter.code()), Some(letter));
        assert_eq!(Letter::from_code(letter.inverted().code()), Some(letter.inverted()));
    }
    for code in [7, 15, 16, 23, 24, 200, 255] {
        assert!(!is_letter(code));
    }
}

#[test]
fn starting_pair() {
    let expected = rows([
        [1, 0, 0, 0, 0, 0, 0, 0],
        [0, 1, 0, 0, 0, 0, 0, 0],
        [0, 0, 1, 0, 0, 0, 0, 0],
        [0, 0, 0, 1, 0, 0, 0, 0],
        [0, 0, 0, 0, 1, 0, 0, 0],
        [0, 0, 0, 0, 0, 1, 0, 0],
        [0, 0, 0, 0, 0, 0, 1, 0],
        [0, 0, 0, 0, 0, 0, 0, 1],
    ]);
    let positions = [1, 2, 3, 4, 5, 6, 7, 8];
    assert_eq!(start(), Pair { matrix: expected, labels: PLAIN_LIST, positions });
}

/// Document 02, section 5, on document 01's list 1 3 0 4 2 6 5 7: label 0 stands at position 3, label 1 at 1, label 2
/// at 5, label 3 at 2, label 4 at 4, label 5 at 7, label 6 at 6, label 7 at 8. Wrong positions are refused.
#[test]
fn where_each_strand_is() {
    let pair = carried(&PLAIN_T_VALUES, &[-3, 6, 4, -1, 2]);
    assert_eq!((pair.labels, pair.positions), ([1, 3, 0, 4, 2, 6, 5, 7], [3, 1, 5, 2, 4, 7, 6, 8]));
    for positions in
        [[1, 2, 3, 4, 5, 6, 7, 8], [2, 0, 4, 1, 3, 6, 5, 7], [1, 3, 5, 2, 4, 7, 6, 8], [0; 8], [9; 8]]
    {
        let stale = Pair { positions, ..pair };
        let mut lent = stale;
        assert_eq!(multiply(&mut lent, Gf32, &PLAIN_T_VALUES, 0), 6);
        assert_eq!(lent, stale, "a refusal changed the pair");
    }
}

/// The starting pair with one row and the list replaced. A word in one generator changes no other row.
fn start_with_row(row: usize, entries: [u8; 8], labels: [u8; 8]) -> Pair {
    let mut pair = Pair::of(start().matrix, labels);
    pair.matrix[8 * (row - 1)..8 * row].copy_from_slice(&entries);
    pair
}

#[test]
fn b3_from_the_start() {
    let swapped = [0, 1, 3, 2, 4, 5, 6, 7];
    let t = &PLAIN_T_VALUES;
    assert_eq!(carried(t, &[3]), start_with_row(3, [0, 2, 2, 1, 0, 0, 0, 0], swapped));
    assert_eq!(carried(t, &[-3]), start_with_row(3, [0, 1, 28, 28, 0, 0, 0, 0], swapped));
    assert_eq!(carried(t, &[3, 3]), start_with_row(3, [0, 4, 6, 3, 0, 0, 0, 0], PLAIN_LIST));
}

/// The first and the last generator. b1 has no column to its left. 1/7 is 12, as in `products_that_follow_by_hand`.
#[test]
fn generators_at_the_edges() {
    let t = &PLAIN_T_VALUES;
    let first = [1, 0, 2, 3, 4, 5, 6, 7];
    let last = [0, 1, 2, 3, 4, 5, 7, 6];
    assert_eq!(carried(t, &[1]), start_with_row(1, [1, 1, 0, 0, 0, 0, 0, 0], first));
    assert_eq!(carried(t, &[-1]), start_with_row(1, [1, 1, 0, 0, 0, 0, 0, 0], first));
    assert_eq!(carried(t, &[7]), start_with_row(7, [0, 0, 0, 0, 0, 6, 6, 1], last));
    assert_eq!(carried(t, &[-7]), start_with_row(7, [0, 0, 0, 0, 0, 1, 12, 12], last));
}

/// Source 004, section 8.4, and section 5.2 with its permutation 2 3 1 of three strands. Source 004 counts from 1. Our
/// labels count from 0 (document 01).
#[test]
fn permutations_of_source_004() {
    assert_eq!(carried(&PLAIN_T_VALUES, &[-3, 6, 4, -1, 2]).labels, [1, 3, 0, 4, 2, 6, 5, 7]);
    assert_eq!(carried(&PLAIN_T_VALUES, &[-1, 2]).labels, [1, 2, 0, 3, 4, 5, 6, 7]);
}

/// Source 004, section 6.4: T-values 14 1 8 1 and b3 b1⁻¹ on four strands. Only products with 0 and 1 occur, so the
/// field does not matter. The last matrix of that section prints 0 8 8 0, a misprint: the matrix before it has t3 t3 1.
#[test]
fn e_multiplication_of_source_004() {
    let t_values = [14, 1, 8, 1, 9, 9, 9, 9];
    let mut expected = Pair::of(start().matrix, [1, 0, 3, 2, 4, 5, 6, 7]);
    expected.matrix[..8].copy_from_slice(&[1, 1, 0, 0, 0, 0, 0, 0]);
    expected.matrix[16..24].copy_from_slice(&[0, 8, 8, 1, 0, 0, 0, 0]);
    assert_eq!(carried(&t_values, &[3, -1]), expected);
}

/// The matrix of b3⁻¹ b6 b4 b1⁻¹ b2. Source 004, section 8.4, gives its rows in terms of the T-values:
/// (1 + t1)/t2, t1/t2, 1/t2; t1, t1, 1; t1, t1, (1 + t3)/t4 + 1, t3/t4, 1/t4; 0, 0, t3, t3, 1; and so on. Source 004
/// uses another field, so this test uses smaller T-values. 1/3 = 28 is from document 01. By hand 22 × 28 = 17,
/// 23 × 28 = 17 + 28 = 13 and 2 × 28 = 29.
#[test]
fn matrix_of_source_004() {
    let labels = [1, 3, 0, 4, 2, 6, 5, 7];
    let like_004 = rows([
        [13, 17, 28, 0, 0, 0, 0, 0],
        [22, 22, 1, 0, 0, 0, 0, 0],
        [22, 22, 12, 12, 1, 0, 0, 0],
        [0, 0, 12, 12, 1, 0, 0, 0],
        [0, 0, 0, 0, 1, 0, 0, 0],
        [0, 0, 0, 0, 8, 8, 1, 0],
        [0, 0, 0, 0, 0, 0, 1, 0],
        [0, 0, 0, 0, 0, 0, 0, 1],
    ]);
    let plain = rows([
        [0, 1, 1, 0, 0, 0, 0, 0],
        [1, 1, 1, 0, 0, 0, 0, 0],
        [1, 1, 0, 29, 28, 0, 0, 0],
        [0, 0, 2, 2, 1, 0, 0, 0],
        [0, 0, 0, 0, 1, 0, 0, 0],
        [0, 0, 0, 0, 5, 5, 1, 0],
        [0, 0, 0, 0, 0, 0, 1, 0],
        [0, 0, 0, 0, 0, 0, 0, 1],
    ]);
    let braid = [-3, 6, 4, -1, 2];
    assert_eq!(carried(&[22, 3, 12, 1, 1, 8, 15, 9], &braid), Pair::of(like_004, labels));
    assert_eq!(carried(&PLAIN_T_VALUES, &braid), Pair::of(plain, labels));
}

/// Source 003, section 2: the matrix of b3 b3 is the letter's matrix at t3 = 2 times its matrix at t3 = 3, since the
/// first letter swaps the labels. Document 01 gives the third row of this product. With the factors exchanged, the row
/// is 3 + 3 × 2 = 5, 3 × 2 = 6, 1 + 3 = 2.
#[test]
fn product_of_two_letter_matrices() {
    let at_two = start_with_row(3, [0, 2, 2, 1, 0, 0, 0, 0], PLAIN_LIST).matrix;
    let at_three = start_with_row(3, [0, 3, 3, 1, 0, 0, 0, 0], PLAIN_LIST).matrix;
    let both = start_with_row(3, [0, 4, 6, 3, 0, 0, 0, 0], PLAIN_LIST).matrix;
    let other = start_with_row(3, [0, 5, 6, 2, 0, 0, 0, 0], PLAIN_LIST).matrix;
    assert_eq!(matrix_product(Gf32, &at_two, &at_three), both);
    assert_eq!(matrix_product(Gf32, &at_three, &at_two), other);
}

#[test]
fn multiplier_refusals_in_order() {
    let mut bad_entry = start();
    bad_entry.matrix[63] = 32;
    bad_entry.labels = [0; 8];
    let mut bad_labels = start();
    bad_labels.labels = [0, 1, 2, 3, 4, 5, 6, 8];
    let mut zero_t_value = PLAIN_T_VALUES;
    zero_t_value[7] = 0;
    let mut high_t_value = zero_t_value;
    high_t_value[0] = 32;
    for (pair, t_values, letter, expected) in [
        (bad_entry, zero_t_value, 7, 17),
        (bad_labels, high_t_value, 7, 17),
        (bad_labels, zero_t_value, 7, 4),
        (bad_labels, PLAIN_T_VALUES, 7, 6),
        (Pair { labels: [0; 8], ..start() }, PLAIN_T_VALUES, 0, 6),
        (start(), PLAIN_T_VALUES, 7, 12),
        (start(), PLAIN_T_VALUES, 15, 12),
        (start(), PLAIN_T_VALUES, 16, 12),
        (start(), PLAIN_T_VALUES, 255, 12),
    ] {
        let mut lent = pair;
        assert_eq!(multiply(&mut lent, Gf32, &t_values, letter), expected);
        assert_eq!(lent, pair, "a refusal changed the pair");
    }
}

/// For the multiplier the first two T-values need not be 1. With t1 = 5, b1 has the row 5, 1.
#[test]
fn multiplier_does_not_ask_question_5() {
    let first = [1, 0, 2, 3, 4, 5, 6, 7];
    let t_values = [5, 9, 2, 3, 4, 5, 6, 7];
    assert_eq!(carried(&t_values, &[1]), start_with_row(1, [5, 1, 0, 0, 0, 0, 0, 0], first));
}

// ---- Words (document 01, "Files"; source 000, sections 10 and 10.2) ----

const SEVEN: &str = "00 07 09 23 C5 E0";

#[test]
fn word_of_source_000_is_read() {
    let word = hex(SEVEN);
    let expected = codes(&[1, -2, 3, 4, -5, 6, -7]);
    assert_eq!(expected, [0x0, 0x9, 0x2, 0x3, 0xC, 0x5, 0xE]);
    assert_eq!(read_word(&word), Word { answer: 0, letters: 7 });
    assert_eq!(letters(&word), expected);
    assert_eq!(code_part(&word), hex("09 23 C5 E0"));
    assert_eq!(code_part(&word).as_ptr(), word[2..].as_ptr(), "it is not a part of the caller's file");
    assert_eq!(letter_at(&word, 0), Some(0));
    assert_eq!(letter_at(&word, 6), Some(0xE));
    assert_eq!(letter_at(&word, 7), None, "filler is not a letter");
}

#[test]
fn word_of_source_000_is_written() {
    assert_eq!(output(|out| write_word(&codes(&[1, -2, 3, 4, -5, 6, -7]), out)), hex(SEVEN));
}

#[test]
fn reader_walks_and_stays() {
    let word = hex(SEVEN);
    let (answer, mut reader) = WordReader::open(&word);
    assert_eq!((answer, reader.letters()), (0, 7));
    for (place, expected) in [0x0, 0x9, 0x2, 0x3, 0xC, 0x5, 0xE].into_iter().enumerate() {
        assert_eq!(reader.place(), place);
        assert_eq!(reader.next_letter(), Some(expected));
    }
    for _ in 0..3 {
        assert_eq!(reader.next_letter(), None);
        assert_eq!(reader.place(), 7);
    }
    assert_eq!(reader.code_part(), hex("09 23 C5 E0"));
}

#[test]
fn refused_reader_has_no_letters() {
    let word = hex("00 03 01 07");
    let (answer, mut reader) = WordReader::open(&word);
    assert_eq!((answer, reader.letters(), reader.place()), (13, 0, 0));
    assert_eq!(reader.next_letter(), None);
    assert_eq!(reader.place(), 0);
    assert!(reader.code_part().is_empty());
}

/// Source 000, section 10: 255 is 00 FF and 256 is 01 00. b1 has code 0.
#[test]
fn numbers_of_source_000() {
    for (length, head) in
        [(255_usize, "00 FF"), (256, "01 00"), (10_000, "27 10"), (0, "00 00"), (1, "00 01")]
    {
        let mut expected = hex(head);
        expected.resize(2 + length.div_ceil(2), 0);
        assert_eq!(output(|out| write_word(&vec![0; length], out)), expected);
        assert_eq!(read_word(&expected), Word { answer: 0, letters: length });
        assert_eq!(letters(&expected), vec![0; length]);
    }
}

/// The braid 1 3 -2 3 -1 of source 004, section 5.2. Its codes are 0 2 9 2 8.
#[test]
fn braid_of_source_004() {
    let word = hex("00 05 02 92 80");
    assert_eq!(letters(&word), codes(&[1, 3, -2, 3, -1]));
    assert_eq!(output(|out| write_word(&codes(&[1, 3, -2, 3, -1]), out)), word);
}

#[test]
fn word_refusals_in_order() {
    let mut long = hex("27 11");
    long.resize(2 + 5_001, 0x77);
    let mut most = hex("27 10");
    most.resize(5_002, 0x77);
    let mut too_long = hex("27 10");
    too_long.resize(5_003, 0);
    for (word, expected) in [
        (hex(""), 9),
        (hex("FF"), 9),
        (hex("27 11"), 10),
        (hex("FF FF"), 10),
        (long, 10),
        (too_long, 11),
        (hex("27 10"), 11),
        (hex("00 00 00"), 11),
        (hex("00 00 77"), 11),
        (hex("00 01"), 11),
        (hex("00 01 77 77"), 11),
        (hex("00 02 07 00"), 11),
        (most, 12),
        (hex("00 02 07"), 12),
        (hex("00 02 F0"), 12),
        (hex("00 01 7F"), 12),
        (hex("00 01 70"), 12),
        (hex("00 03 01 F7"), 12),
        (hex("00 01 07"), 13),
        (hex("00 01 01"), 13),
        (hex("00 01 08"), 13),
        (hex("00 01 0F"), 13),
        (hex("00 07 09 23 C5 E1"), 13),
    ] {
        assert_eq!(read_word(&word), Word { answer: expected, letters: 0 }, "{word:02X?}");
        assert!(code_part(&word).is_empty());
        assert!(letters(&word).is_empty());
        assert_eq!(letter_at(&word, 0), None);
        assert_eq!(WordReader::open(&word).0, expected);
        refuses(expected, 5_002, |out| free_reduce(&word, out));
        assert_eq!(cloaks(&plain_key(), &PLAIN_LIST, &word), Cloak { answer: expected, yes: false });
    }
}

#[test]
fn word_writer_refusals_in_order() {
    refuses(15, 5_001, |out| write_word(&[7; 10_001], out));
    refuses(15, 0, |out| write_word(&[], out));
    refuses(10, 5_002, |out| write_word(&[7; 10_001], out));
    for code in [7, 15, 16, 0x80, 255] {
        refuses(12, 5_002, |out| write_word(&[0, code], out));
    }
}

// ---- Keys (document 01, "Files"; source 000, section 10.1) ----

#[test]
fn plain_key_is_read() {
    let key = read_key(&plain_key());
    assert_eq!((key.answer, key.field), (0, Gf32));
    assert_eq!(key.t_values, PLAIN_T_VALUES);
    assert_eq!(key.pair, start());
    assert_eq!(key.second, start().matrix);
}

#[test]
fn plain_key_is_written() {
    let mut out = vec![0xAA; 90];
    let entries = identity_entries();
    assert_eq!(write_key(Gf32, &PLAIN_T_VALUES, &PLAIN_LIST, &entries, &entries, &mut out), 0);
    assert_eq!(out[..83], plain_key());
    assert_eq!(out[..8], hex("08 00 20 08 44 32 14 C7"));
    assert_eq!(out[44..47], hex("05 39 77"));
    assert!(out[83..].iter().all(|byte| *byte == 0xAA));
}

/// A file holds rows 1 to 7 whole, then the last entry of row 8. The matrix has the numbers 0 to 63, row by row, so the
/// file has 0 to 55 and 63. The other entries of row 8 do not matter.
#[test]
fn entries_of_a_matrix() {
    let mut matrix = [0; 64];
    for row in 0..8 {
        for column in 0..8 {
            matrix[at(row + 1, column + 1)] = 8 * row as u8 + column as u8;
        }
    }
    let entries = file_entries(&matrix);
    assert!(entries[..56].iter().copied().eq(0..56));
    assert_eq!(entries[56], 63);
    matrix[at(8, 1)] = 255;
    assert_eq!(file_entries(&matrix), entries);
    assert_eq!(file_entries(&start().matrix), identity_entries());
}

/// Source 000, section 11.1: the key has 664 bits, that is 83 bytes.
#[test]
fn plain_key_has_83_bytes() {
    assert_eq!(plain_key().len() * 8, 664);
    assert_eq!(hex(PACKED_IDENTITY).len() * 8, 57 * 5 + 3);
}

/// The first matrix has 16 on the diagonal and 1 above it. It is triangular without a zero on its diagonal, so it has
/// an inverse. Eight entries of five bits are five bytes, so each row begins with a new byte. Row 1 is
/// 10000 00001 00001 00001 00001 00001 00001 00001, row 2 is 00000 10000 00001 and so on. The last of the 57 entries is
/// 16, that is 10000, and three zero bits follow.
#[test]
fn every_entry_has_its_place() {
    let mut first = [0; 57];
    for row in 0..7 {
        first[8 * row + row] = 16;
        first[8 * row + row + 1..8 * row + 8].fill(1);
    }
    first[56] = 16;
    let packed = "80 42 10 84 21 04 02 10 84 21 00 20 10 84 21 00 01 00 84 21 \
                  00 00 08 04 21 00 00 00 40 21 00 00 00 02 01 80";
    let expected = hex(&format!("08 00 20 08 44 32 14 C7 {packed} FA C6 88 {PACKED_IDENTITY}"));
    let mut out = vec![0; 83];
    let reversed = [7, 6, 5, 4, 3, 2, 1, 0];
    assert_eq!(write_key(Gf32, &PLAIN_T_VALUES, &reversed, &first, &identity_entries(), &mut out), 0);
    assert_eq!(out, expected);
    let key = read_key(&expected);
    assert_eq!(key.pair.labels, reversed);
    assert_eq!(key.pair.matrix[..56], first[..56]);
    assert_eq!(key.pair.matrix[56..], [0, 0, 0, 0, 0, 0, 0, 16]);
    assert_eq!(key.second, start().matrix);
}

#[test]
fn key_refusals_in_order() {
    let refused = |file: &[u8], expected: u8| {
        let zeros =
            Key { answer: expected, field: Gf32, t_values: [0; 8], pair: Pair::ZEROS, second: [0; 64] };
        assert_eq!(read_key(file), zeros);
        assert_eq!(cloaks(file, &[], &[]), Cloak { answer: expected, yes: false });
    };
    refused(&[], 1);
    refused(&[8; 82], 1);
    refused(&[8; 84], 1);
    let mut file = vec![0xFF; 83];
    refused(&file, 2);
    file[0] = 8;
    refused(&file, 3);
    file[1] = 0;
    refused(&file, 3);
    file[2] = 32;
    file[1] = 1;
    refused(&file, 3);
    file[1] = 0;
    file[3..8].copy_from_slice(&hex("08 44 32 14 C0")); // 1 1 2 3 4 5 6 0
    refused(&file, 4);
    file[3] = 0x10; // 2 1 2 3 4 5 6 0
    refused(&file, 4);
    file[7] = 0xC7;
    refused(&file, 5);
    file[3..8].copy_from_slice(&hex("08 84 32 14 C7")); // 1 2 2 3 4 5 6 7
    refused(&file, 5);
    file[3..8].copy_from_slice(&hex("08 44 32 14 C7"));
    refused(&file, 6);
    file[44..47].copy_from_slice(&hex("05 39 76")); // 0 1 2 3 4 5 6 6
    refused(&file, 6);
    file[44..47].copy_from_slice(&hex("05 39 77"));
    refused(&file, 7);
    file[43] = 0xF8;
    refused(&file, 7);
    file[82] = 0xF9;
    refused(&file, 7);
    file[82] = 0xF8;
    file[43] = 0xFC;
    refused(&file, 7);
    file[43] = 0xF8;
    refused(&file, 26); // all entries 31: rows 1 to 7 are equal
    file[8..44].copy_from_slice(&hex(PACKED_IDENTITY));
    refused(&file, 26);
    file[47..].copy_from_slice(&hex(PACKED_IDENTITY));
    assert_eq!(file, plain_key());
    assert_eq!(read_key(&file).answer, 0);
    file[8..44].fill(0);
    refused(&file, 26);
}

#[test]
fn key_writer_refusals_in_order() {
    let good = identity_entries();
    let mut bad = good;
    bad[56] = 32;
    let mut row_lost = good;
    row_lost[27] = 0;
    let blank = [0; 57];
    let high_alone = [32; 57];
    let zero = [2, 1, 0, 3, 4, 5, 6, 7];
    let high = [2, 1, 0, 3, 4, 5, 6, 32];
    let not_one = [1, 2, 2, 3, 4, 5, 6, 7];
    let twice = [0, 0, 2, 3, 4, 5, 6, 7];
    let eight = [8, 1, 2, 3, 4, 5, 6, 7];
    for (t_values, labels, first, second, size, expected) in [
        (zero, twice, bad, bad, 82, 16),
        (zero, twice, bad, good, 83, 17),
        (zero, twice, good, bad, 83, 17),
        (high, twice, good, good, 83, 17),
        (zero, twice, good, good, 83, 4),
        (not_one, twice, good, good, 83, 5),
        ([3, 1, 2, 3, 4, 5, 6, 7], twice, good, good, 83, 5),
        (PLAIN_T_VALUES, twice, good, good, 83, 6),
        (PLAIN_T_VALUES, eight, good, good, 83, 6),
        (PLAIN_T_VALUES, PLAIN_LIST, blank, high_alone, 83, 17),
        (zero, PLAIN_LIST, blank, blank, 83, 4),
        (not_one, PLAIN_LIST, blank, blank, 83, 5),
        (PLAIN_T_VALUES, twice, blank, blank, 83, 6),
        (PLAIN_T_VALUES, PLAIN_LIST, blank, blank, 83, 26),
        (PLAIN_T_VALUES, PLAIN_LIST, blank, good, 83, 26),
        (PLAIN_T_VALUES, PLAIN_LIST, good, blank, 83, 26),
        (PLAIN_T_VALUES, PLAIN_LIST, row_lost, good, 83, 26),
        (PLAIN_T_VALUES, PLAIN_LIST, good, row_lost, 83, 26),
    ] {
        let mut out = vec![0xAA; size];
        assert_eq!(write_key(Gf32, &t_values, &labels, &first, &second, &mut out), expected);
        assert!(out.iter().all(|byte| *byte == 0xAA), "a refusal changed the output");
    }
}

// ---- The digest as a braid (document 01) ----

/// The braid of every half byte, by document 01's rule. Document 01 gives half byte 6 as an example.
const HALF_BYTES: [&[u8]; 16] = [
    &[6, 6],
    &[6, 5, 4, 4, 0xD, 0xE],
    &[6, 5, 4, 3, 2, 2, 0xB, 0xC, 0xD, 0xE],
    &[6, 5, 4, 3, 2, 1, 0, 0, 9, 0xA, 0xB, 0xC, 0xD, 0xE],
    &[6, 6, 6, 6],
    &[6, 5, 4, 4, 4, 4, 0xD, 0xE],
    &[6, 5, 4, 3, 2, 2, 2, 2, 0xB, 0xC, 0xD, 0xE],
    &[6, 5, 4, 3, 2, 1, 0, 0, 0, 0, 9, 0xA, 0xB, 0xC, 0xD, 0xE],
    &[6, 6, 6, 6, 6, 6],
    &[6, 5, 4, 4, 4, 4, 4, 4, 0xD, 0xE],
    &[6, 5, 4, 3, 2, 2, 2, 2, 2, 2, 0xB, 0xC, 0xD, 0xE],
    &[6, 5, 4, 3, 2, 1, 0, 0, 0, 0, 0, 0, 9, 0xA, 0xB, 0xC, 0xD, 0xE],
    &[6, 6, 6, 6, 6, 6, 6, 6],
    &[6, 5, 4, 4, 4, 4, 4, 4, 4, 4, 0xD, 0xE],
    &[6, 5, 4, 3, 2, 2, 2, 2, 2, 2, 2, 2, 0xB, 0xC, 0xD, 0xE],
    &[6, 5, 4, 3, 2, 1, 0, 0, 0, 0, 0, 0, 0, 0, 9, 0xA, 0xB, 0xC, 0xD, 0xE],
];

#[test]
fn braids_of_half_bytes() {
    for (half, expected) in (0..16).zip(HALF_BYTES) {
        assert_eq!(half_byte_braid(half), expected);
    }
}

#[test]
fn digests_as_words() {
    let every = "66 65 44 DE 65 43 22 BC DE 65 43 21 00 9A BC DE \
                 66 66 65 44 44 DE 65 43 22 22 BC DE 65 43 21 00 00 9A BC DE \
                 66 66 66 65 44 44 44 DE 65 43 22 22 22 BC DE 65 43 21 00 00 00 9A BC DE \
                 66 66 66 66 65 44 44 44 44 DE 65 43 22 22 22 22 BC DE 65 43 21 00 00 00 00 9A BC DE ";
    let half_bytes_1234 = format!("65 44 DE 65 43 22 BC DE 65 43 21 00 9A BC DE 66 66 {}", "66 ".repeat(60));
    for (digest, number, braid, times) in [
        ("00 ".repeat(32), "00 80", "66 ", 64),
        ("66 ".repeat(32), "03 00", "65 43 22 22 BC DE ", 64),
        ("FF ".repeat(32), "05 00", "65 43 21 00 00 00 00 9A BC DE ", 64),
        ("30 ".repeat(32), "02 00", "65 43 21 00 9A BC DE 66 ", 32),
        ("03 ".repeat(32), "02 00", "66 65 43 21 00 9A BC DE ", 32),
        ("01 23 45 67 89 AB CD EF ".repeat(4), "02 C0", every, 4),
        (format!("12 34 {}", "00 ".repeat(30)), "00 9A", &half_bytes_1234, 1),
    ] {
        let expected = hex(&format!("{number} {}", braid.repeat(times)));
        assert_eq!(output(|out| encode_digest(&hex(&digest), out)), expected);
    }
}

#[test]
fn encoder_refusals_in_order() {
    refuses(15, 5_001, |out| encode_digest(&[0; 31], out));
    for length in [0, 31, 33, 48, 63, 65, 128] {
        refuses(8, 5_002, |out| encode_digest(&vec![0; length], out));
    }
}

// ---- Free reduction (source 000, section 5.1; source 004, section 8.4) ----

#[test]
fn free_reductions() {
    for (word, expected) in [
        ("00 04 01 92", "00 02 02"), // b1 b2 b2⁻¹ b3 becomes b1 b3 (source 000)
        ("00 02 08", "00 00"),       // the slip of document 01 for kind 1
        ("00 02 80", "00 00"),       // the inverse comes first (source 000)
        ("00 04 01 98", "00 00"),    // b1 b2 b2⁻¹ b1⁻¹: the outer letters become neighbours
        ("00 03 08 00", "00 01 00"), // b1 b1⁻¹ b1
        ("00 06 01 2A 98", "00 00"), // b1 b2 b3 b3⁻¹ b2⁻¹ b1⁻¹
        ("00 00", "00 00"),
        (SEVEN, SEVEN),
        // g35 g47 g37 of source 004: 4 3 3 -4 6 5 4 4 -5 -6 6 5 4 3 3 -4 -5 -6
        ("00 12 32 2B 54 33 CD 54 32 2B CD", "00 0E 32 2B 54 33 32 2B CD"),
    ] {
        assert_eq!(output(|out| free_reduce(&hex(word), out)), hex(expected));
    }
}

#[test]
fn free_reduction_of_the_longest_word() {
    let mut word = vec![0; 5_000];
    word.resize(10_000, 8);
    assert_eq!(output(|out| free_reduce(&file(&word), out)), hex("00 00"));
}

#[test]
fn free_reduction_refusals_in_order() {
    refuses(15, 5_001, |out| free_reduce(&[], out));
    refuses(15, 5_001, |out| free_reduce(&hex("00 00"), out));
    refuses(9, 5_002, |out| free_reduce(&[], out));
    refuses(12, 5_002, |out| free_reduce(&hex("00 01 7F"), out));
    refuses(13, 5_002, |out| free_reduce(&hex("00 01 07"), out));
}

// ---- Cloaking (document 01; source 003, section 4 and appendix A; source 004, section 8.4) ----

#[test]
fn cloaking_slips() {
    assert!(yes(&plain_key(), PLAIN_LIST, &hex("00 02 00")));
    assert!(!yes(&plain_key(), PLAIN_LIST, &hex("00 02 22")));
    assert!(yes(&plain_key(), PLAIN_LIST, &hex("00 00")));
}

/// b_i b_i cloaks if the labels at positions i and i + 1 have T-value 1 (source 000, section 5.2). An odd number of
/// letters never cloaks, since the list cannot come back.
#[test]
fn cloaking_follows_the_labels() {
    assert!(yes(&plain_key(), [2, 3, 0, 1, 4, 5, 6, 7], &hex("00 02 22")));
    assert!(yes(&plain_key(), [2, 3, 1, 0, 4, 5, 6, 7], &hex("00 02 AA")));
    assert!(!yes(&plain_key(), [2, 1, 0, 3, 4, 5, 6, 7], &hex("00 02 00")));
    assert!(!yes(&plain_key(), PLAIN_LIST, &hex("00 01 00")));
    assert!(!yes(&plain_key(), PLAIN_LIST, &hex("00 03 00 00")));
    assert!(yes(&plain_key(), [7, 6, 5, 4, 3, 2, 1, 0], &hex("00 02 3B")));
}

/// Source 003, proposition 4.3: w, 2μ times, cloaks for 0 to 7 if the T-values of its μ strands have the product -1,
/// which is 1 in this field. The products use 3 × 28 = 1 (document 01). The figures are those of appendix A. T-values
/// are packed by hand.
#[test]
fn cores_of_source_003() {
    for (packed, number, core, times) in [
        ("08 44 32 14 C7", "00 04", "00", 2), // strands 1 2: b1, four times; 1 1 2 3 4 5 6 7
        ("08 42 32 14 C7", "00 0C", "01", 6), // strands 1 2 3: b1 b2; 1 1 1 3 4 5 6 7
        ("08 47 C2 14 C7", "00 18", "10 92", 6), // strands 1 3 4: b2 b1 b2⁻¹ b3; 1 1 3 28 4 5 6 7
        ("08 44 32 0F 87", "00 3C", "CB A9 01 23 45", 6), // figure 2, strands 1 6 7; 1 1 2 3 4 3 28 7
        ("08 44 32 14 27", "00 3C", "0D CB A1 23 45", 6), // figure 3, strands 1 2 7; 1 1 2 3 4 5 1 7
        ("08 44 31 94 DC", "00 48", "BA 90 12 34 56 DC", 6), // figure 4, strands 1 5 8; 1 1 2 3 3 5 6 28
        ("08 44 31 F0 C7", "00 30", "BA 90 12 34", 6), // strands 1 5 6; 1 1 2 3 3 28 6 7
    ] {
        let word = hex(&format!("{number} {}", format!("{core} ").repeat(times)));
        assert!(yes(&key_with_t_values(packed), PLAIN_LIST, &word), "{core}");
    }
}

/// Source 003, appendix A: a 4-core spliced into a 3-core, six times. The T-values must satisfy two equations. Figures
/// 7 and 8 need t1 t5 t6 = 1 and t2 t3 t4 = -1. Figure 9 needs t1 t4 t6 = 1 and t2 t3 t5 = -1.
#[test]
fn spliced_cores_of_source_003() {
    for (packed, core) in [
        ("08 47 C1 F0 C7", "BA 91 23 12 31 23 12 30 12 34"), // figure 7; 1 1 3 28 3 28 6 7
        ("08 47 C1 F0 C7", "BA 92 34 23 42 34 23 40 12 34"), // figure 8
        ("08 46 3E 70 C7", "A9 C2 34 23 42 34 23 40 12 34"), // figure 9; 1 1 3 3 28 28 6 7
    ] {
        let word = hex(&format!("00 78 {}", format!("{core} ").repeat(6)));
        assert!(yes(&key_with_t_values(packed), PLAIN_LIST, &word), "{core}");
    }
}

/// If positions i and i + 1 have the same T-value t, n letters b_i have t + .. + t^n, t^n, 1 + .. + t^(n-1) in row i.
/// For t = 2 and n = 31 this is 0, 1, 0, since t^31 = 1 for all elements but zero. So 31 letters bring the matrix back,
/// but not the list. 62 letters bring both back. The T-values are 1 1 2 2 4 5 6 7.
#[test]
fn list_counts_in_cloaking() {
    let key = key_with_t_values("08 44 22 14 C7");
    let once = hex(&format!("00 1F {}20", "22 ".repeat(15)));
    let twice = hex(&format!("00 3E {}", "22 ".repeat(31)));
    assert!(!yes(&key, PLAIN_LIST, &once));
    assert!(yes(&key, PLAIN_LIST, &twice));
    let swapped = Pair::of(start().matrix, [0, 1, 3, 2, 4, 5, 6, 7]);
    assert_eq!(carried(&[1, 1, 2, 2, 4, 5, 6, 7], &[3; 31]), swapped);
}

/// The matrix of a generator has the determinant t. In b1 b2, six times, each two of the three strands cross four
/// times. So the determinant is (t1 t2 t3)^4 = 2^4 = 16 under the plain key, and the matrix is not the identity.
#[test]
fn core_without_its_identity_does_not_cloak() {
    assert!(!yes(&plain_key(), PLAIN_LIST, &hex("00 0C 01 01 01 01 01 01")));
}

/// The cloaking element of source 004, section 8.4. As printed it has 39 letters, so its permutation is odd: the second
/// half lacks one of three letters -4. Here this letter is added. Then labels 3 and 4 of the list 1 3 0 4 2 6 5 7 stand
/// at positions 5 and 6 before 5 5. So the word brings back every pair with this list if both labels have the T-value
/// 1.
const CLOAK_OF_004: [i8; 40] = [
    4, 5, 2, 3, 4, 4, 3, 3, -4, 6, 5, 4, 4, 4, 3, 3, -4, -5, -6, 5, 5, 6, 5, 4, -3, -3, -4, -4, -4, -5, -6,
    4, -3, -3, -4, -4, -3, -2, -5, -4,
];

#[test]
fn cloaking_element_of_source_004() {
    let t_values = [22, 3, 12, 1, 1, 8, 15, 9];
    let before = carried(&t_values, &[-3, 6, 4, -1, 2]);
    assert_eq!(carried_from(before, &t_values, &CLOAK_OF_004), before);
    let whole = hex("00 28 34 12 33 22 B5 43 33 22 BC D4 45 43 AA BB BC D3 AA BB A9 CB");
    let printed = hex("00 27 34 12 33 22 B5 43 33 22 BC D4 45 43 AA BB CD 3A AB BA 9C B0");
    assert_eq!(letters(&whole), codes(&CLOAK_OF_004));
    // Under a key labels 0 and 1 have the T-value 1. The word cloaks if these two labels stand at positions 2 and 4.
    assert!(yes(&plain_key(), [2, 0, 3, 1, 4, 5, 6, 7], &whole));
    assert!(yes(&plain_key(), [7, 1, 6, 0, 5, 4, 3, 2], &whole));
    assert!(!yes(&plain_key(), [2, 0, 3, 1, 4, 5, 6, 7], &printed));
}

#[test]
fn cloaking_refusals_in_order() {
    let refused = |key: &[u8], list: &[u8], word: &[u8], expected: u8| {
        assert_eq!(cloaks(key, list, word), Cloak { answer: expected, yes: false });
    };
    refused(&[], &[], &[], 1);
    refused(&blank_key(), &[], &[], 26);
    refused(&blank_key(), &PLAIN_LIST, &hex("00 00"), 26);
    for list in ["", "00 01 02 03 04 05 06", "00 01 02 03 04 05 06 07 08", "00 01 02 03 04 05 06 06"] {
        refused(&plain_key(), &hex(list), &[], 25);
    }
    refused(&plain_key(), &hex("01 02 03 04 05 06 07 08"), &hex("00 00"), 25);
    refused(&plain_key(), &PLAIN_LIST, &[], 9);
    refused(&plain_key(), &PLAIN_LIST, &hex("00 02 08 00"), 11);
}

#[test]
fn a_room_of_5002_bytes_is_enough() {
    let mut out = vec![0xAA; 5_002];
    assert_eq!(write_word(&[], &mut out), Written { answer: 0, bytes: 2 });
    assert_eq!(out[..3], hex("00 00 AA"));
}
