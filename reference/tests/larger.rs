//! Strength 256: the field with 256 elements, its keys and digests (document 02, section 7). Expected values are typed
//! from the papers, or follow from the papers by the reasoning beside them. The code under test computed none of them.

mod common;

use common::{
    blank_key_over, hex, identity_entries, key_with_t_values, large_key_with_t_values, large_plain_key,
    output, plain_key, refuses, LARGE_IDENTITY, PLAIN_LIST, PLAIN_T_VALUES,
};
use reference::key::layout;
use reference::Field::{Gf256, Gf32};
use reference::{
    cloaks, desk, encode_digest, multiply, product, read_key, reciprocal, start, verify, write_key, Cloak,
    Element, Key, Pair,
};

fn times(left: u8, right: u8) -> u8 {
    let Element { answer, value } = product(Gf256, left, right);
    assert_eq!(answer, 0);
    value
}

// ---- The field ----

/// x^8 = x^4 + x^3 + x^2 + 1, so 128 × 2 = 16 + 8 + 4 + 1 = 29. 16 × 16 = x^4 x^4 = 29 as well. (With the polynomial
/// x^8 + x^4 + x^3 + x + 1 it would be 27.) Below x^8 nothing is reduced: 16 × 2 = 32, which is 5 in the smaller field.
#[test]
fn products_by_hand() {
    assert_eq!(times(128, 2), 29);
    assert_eq!(times(2, 128), 29);
    assert_eq!(times(16, 16), 29);
    assert_eq!(times(16, 2), 32);
    assert_eq!(times(0, 255), 0);
    assert_eq!(times(1, 255), 255);
}

/// The powers of x from x^8 on. Each is x times the one before. Sums in the field are exclusive or. x^8 to x^11 are 29,
/// 58, 116, 232. Then 2 × 232 = 256 + 208 and 208 + 29 = 205, 2 × 205 = 256 + 154 and 154 + 29 = 135,
/// 2 × 135 = 256 + 14 and 14 + 29 = 19. The square of 255 is the sum of x^14, x^12, .., x^2 and 1:
/// 19 + 205 + 116 + 29 + 64 + 16 + 4 + 1 = 226.
#[test]
fn powers_of_x_by_hand() {
    let mut power = 128;
    for expected in [29, 58, 116, 232, 205, 135, 19] {
        power = times(2, power);
        assert_eq!(power, expected);
    }
    assert_eq!(times(255, 255), 226);
}

/// x (x^7 + x^3 + x^2 + x) = x^8 + x^4 + x^3 + x^2 = 1, so the reciprocal of 2 is 128 + 8 + 4 + 2 = 142.
/// (x + 1)(x^7 + x^6 + x^5 + x^4 + x^2) = x^8 + x^4 + x^3 + x^2 = 1, so the reciprocal of 3 is
/// 128 + 64 + 32 + 16 + 4 = 244.
#[test]
fn reciprocals_by_hand() {
    for (element, expected) in [(1, 1), (2, 142), (142, 2), (3, 244), (244, 3)] {
        assert_eq!(reciprocal(Gf256, element), Element { answer: 0, value: expected });
    }
    assert_eq!(reciprocal(Gf256, 0), Element { answer: 4, value: 0 });
}

/// The 255 elements other than zero are the powers of x. After x^0, x^255 is the first power that is 1.
#[test]
fn powers_of_x_are_all_elements() {
    let powers: Vec<u8> = std::iter::successors(Some(1), |power| Some(times(2, *power))).take(256).collect();
    assert_eq!(powers.iter().filter(|power| **power == 1).count(), 2);
    assert_eq!((powers[0], powers[255]), (1, 1));
}

// ---- Letters ----

/// The starting pair with row 3 and the list replaced.
fn start_with_row_3(entries: [u8; 8], labels: [u8; 8]) -> Pair {
    let mut pair = Pair::of(start().matrix, labels);
    pair.matrix[16..24].copy_from_slice(&entries);
    pair
}

/// Row 3 from the start. b3 has 2, 2, 1, and b3 b3 has 2 + 3 × 2 = 4, 3 × 2 = 6, 1 + 2 = 3. Both are as in the smaller
/// field, since nothing is reduced. b3⁻¹ has 1, 1/3, 1/3 with 1/3 = 244. With T-values 128 and 2 at labels 2 and 3,
/// b3 b3 has 128 + 2 × 128 = 157, 2 × 128 = 29, 1 + 128 = 129.
#[test]
fn b3_from_the_start() {
    let swapped = [0, 1, 3, 2, 4, 5, 6, 7];
    let high = [1, 1, 128, 2, 4, 5, 6, 7];
    for (t_values, letters, expected) in [
        (PLAIN_T_VALUES, vec![2], start_with_row_3([0, 2, 2, 1, 0, 0, 0, 0], swapped)),
        (PLAIN_T_VALUES, vec![10], start_with_row_3([0, 1, 244, 244, 0, 0, 0, 0], swapped)),
        (PLAIN_T_VALUES, vec![2, 2], start_with_row_3([0, 4, 6, 3, 0, 0, 0, 0], PLAIN_LIST)),
        (high, vec![2], start_with_row_3([0, 128, 128, 1, 0, 0, 0, 0], swapped)),
        (high, vec![2, 2], start_with_row_3([0, 157, 29, 129, 0, 0, 0, 0], PLAIN_LIST)),
    ] {
        let mut pair = start();
        for letter in letters {
            assert_eq!(multiply(&mut pair, Gf256, &t_values, letter), 0);
        }
        assert_eq!(pair, expected);
    }
}

/// Every byte is an element of the larger field, so 17 never occurs there. 4, 6 and 12 follow in this order.
#[test]
fn multiplier_refusals_in_order() {
    let high = Pair { matrix: [255; 64], ..start() };
    let bad_labels = Pair { labels: [0; 8], ..high };
    for (pair, t_values, letter, small, large) in [
        (bad_labels, [0; 8], 7, 17, 4),
        (bad_labels, [255; 8], 7, 17, 6),
        (high, [255; 8], 7, 17, 12),
        (high, [255; 8], 15, 17, 12),
        (Pair { matrix: [31; 64], ..bad_labels }, [31, 31, 31, 31, 31, 31, 31, 0], 7, 4, 4),
        (Pair { matrix: [31; 64], ..start() }, [31, 31, 31, 31, 31, 31, 31, 32], 7, 17, 12),
        (Pair { matrix: [32; 64], ..start() }, PLAIN_T_VALUES, 7, 17, 12),
    ] {
        for (field, expected) in [(Gf32, small), (Gf256, large)] {
            let mut lent = pair;
            assert_eq!(multiply(&mut lent, field, &t_values, letter), expected);
            assert_eq!(lent, pair, "a refusal changed the pair");
        }
    }
    assert_eq!(multiply(&mut high.clone(), Gf256, &[255; 8], 0), 0);
}

// ---- Keys ----

/// 3 bytes of N and q, 8 T-values, 57 entries, 3 bytes of labels and 57 entries are 128 bytes, without filler.
#[test]
fn plain_key_has_128_bytes() {
    assert_eq!(large_plain_key().len(), 3 + 8 + 57 + 3 + 57);
    assert_eq!(large_plain_key().len(), 128);
    assert_eq!(hex(LARGE_IDENTITY), identity_entries());
}

#[test]
fn plain_key_is_read_and_written() {
    let file = large_plain_key();
    let key = read_key(&file);
    let plain =
        Key { answer: 0, field: Gf256, t_values: PLAIN_T_VALUES, pair: start(), second: start().matrix };
    assert_eq!(key, plain);
    let mut out = vec![0xAA; 135];
    let entries = identity_entries();
    assert_eq!(write_key(Gf256, &PLAIN_T_VALUES, &PLAIN_LIST, &entries, &entries, &mut out), 0);
    assert_eq!(out[..128], file);
    assert_eq!(out[..11], hex("08 01 00 01 01 02 03 04 05 06 07"));
    assert_eq!(out[68..71], hex("05 39 77"));
    assert!(out[128..].iter().all(|byte| *byte == 0xAA));
}

/// Each part begins where the part before it ends. The last part ends with the file.
#[test]
fn parts_of_keys_stand_end_to_end() {
    for (field, bytes, element, filler) in [(Gf32, 83, 5, 3), (Gf256, 128, 8, 0)] {
        let layout = layout(field);
        assert_eq!((field.key_bytes(), layout.element), (bytes, element));
        let mut at = 24;
        for (part, bits) in [
            (&layout.t_values, 8 * element),
            (&layout.first, 57 * element),
            (&layout.first_filler, filler),
            (&layout.labels, 24),
            (&layout.second, 57 * element),
            (&layout.second_filler, filler),
        ] {
            assert_eq!(*part, at..at + bits);
            at += bits;
        }
        assert_eq!(at, 8 * bytes);
    }
}

/// The first matrix has 200 on the diagonal, and above it 100 plus the number of the entry. So each entry shows its
/// byte in the file. Both matrices are triangular without a zero on the diagonal, so they have inverses.
#[test]
fn every_entry_has_its_place() {
    let mut first = [0; 57];
    for row in 0..7 {
        for column in row..8 {
            first[8 * row + column] = if row == column { 200 } else { 100 + (8 * row + column) as u8 };
        }
    }
    first[56] = 200;
    let reversed = [7, 6, 5, 4, 3, 2, 1, 0];
    let t_values = [1, 1, 255, 254, 128, 64, 32, 31];
    let mut expected = hex("08 01 00 01 01 FF FE 80 40 20 1F");
    expected.extend(first);
    expected.extend(hex("FA C6 88"));
    expected.extend(identity_entries());
    let mut out = vec![0; 128];
    assert_eq!(write_key(Gf256, &t_values, &reversed, &first, &identity_entries(), &mut out), 0);
    assert_eq!(out, expected);
    let key = read_key(&expected);
    assert_eq!((key.answer, key.field, key.t_values, key.pair.labels), (0, Gf256, t_values, reversed));
    assert_eq!(key.pair.matrix[..56], first[..56]);
    assert_eq!(key.pair.matrix[56..], [0, 0, 0, 0, 0, 0, 0, 200]);
    assert_eq!(key.second, start().matrix);
}

/// Reader, verdict and cloaking must refuse the key with this answer. The reader must return zeros and the field with
/// 32 elements.
fn refused(file: &[u8], expected: u8) {
    let zeros = Key { answer: expected, field: Gf32, t_values: [0; 8], pair: Pair::ZEROS, second: [0; 64] };
    assert_eq!(read_key(file), zeros);
    assert_eq!(cloaks(file, &[], &[]), Cloak { answer: expected, yes: false });
    assert_eq!(verify(file, &[], &[]), expected);
    assert_eq!(verify(file, &[0; 64], &hex("00 00")), expected);
    assert_eq!(verify(file, &[0; 32], &hex("00 00")), expected);
}

/// Question 1 asks for 83 or 128 bytes. Files of every other length get 1.
#[test]
fn other_lengths() {
    for length in (0..300).filter(|length| *length != 83 && *length != 128) {
        refused(&vec![8; length], 1);
    }
    refused(&large_plain_key()[..127], 1);
    refused(&[large_plain_key(), vec![0]].concat(), 1);
    refused(&large_plain_key()[..83], 3);
}

/// Question 3 asks for the q that goes with the file's length.
#[test]
fn q_goes_with_the_length() {
    for (q, small, large) in [
        ([0, 32], 0, 3),
        ([1, 0], 3, 0),
        ([0, 0], 3, 3),
        ([0, 1], 3, 3),
        ([1, 32], 3, 3),
        ([32, 0], 3, 3),
        ([0, 255], 3, 3),
        ([2, 0], 3, 3),
    ] {
        for (mut file, expected) in [(plain_key(), small), (large_plain_key(), large)] {
            file[1..3].copy_from_slice(&q);
            if expected == 0 {
                assert_eq!(read_key(&file).answer, 0);
            } else {
                refused(&file, expected);
            }
        }
    }
}

/// The file starts as 128 bytes FF, and the test repairs one fault after another. There is no filler, so the answer is
/// never 7.
#[test]
fn key_refusals_in_order() {
    let mut file = vec![0xFF; 128];
    refused(&file, 2);
    file[0] = 8;
    refused(&file, 3);
    file[1..3].copy_from_slice(&[0, 32]);
    refused(&file, 3);
    file[1..3].copy_from_slice(&[1, 0]);
    file[10] = 0;
    refused(&file, 4);
    file[10] = 7;
    refused(&file, 5);
    file[3] = 1;
    refused(&file, 5);
    file[4] = 1;
    refused(&file, 6);
    file[68..71].copy_from_slice(&hex("05 39 76")); // 0 1 2 3 4 5 6 6
    refused(&file, 6);
    file[68..71].copy_from_slice(&hex("05 39 77"));
    refused(&file, 26); // all entries 255: rows 1 to 7 are equal
    file[11..68].copy_from_slice(&hex(LARGE_IDENTITY));
    refused(&file, 26);
    file[71..].copy_from_slice(&hex(LARGE_IDENTITY));
    assert_eq!(read_key(&file).answer, 0);
    file[5..11].copy_from_slice(&hex("02 03 04 05 06 07"));
    assert_eq!(file, large_plain_key());
    file[11..68].fill(0);
    refused(&file, 26);
    refused(&blank_key_over(Gf256), 26);
}

/// A matrix may have an inverse over one field and none over the other. Rows 1 2 and 16 5 have the determinant
/// 1 × 5 + 2 × 16: 5 + 5 = 0 over 32 elements, 5 + 32 = 37 over 256. Rows 1 2 and 128 29 have 29 + 29 = 0 over 256.
#[test]
fn inverses_are_of_the_keys_own_field() {
    let entries = |rows: [[u8; 2]; 2]| {
        let mut entries = identity_entries();
        entries[..2].copy_from_slice(&rows[0]);
        entries[8..10].copy_from_slice(&rows[1]);
        entries
    };
    for (rows, small, large) in [
        ([[1, 2], [16, 5]], 26, 0),
        ([[1, 2], [16, 32]], 17, 26),
        ([[1, 2], [128, 29]], 17, 26),
        ([[1, 2], [128, 28]], 17, 0),
    ] {
        for (field, expected) in [(Gf32, small), (Gf256, large)] {
            let mut out = vec![0xAA; 128];
            let (odd, good) = (entries(rows), identity_entries());
            assert_eq!(write_key(field, &PLAIN_T_VALUES, &PLAIN_LIST, &odd, &good, &mut out), expected);
            assert_eq!(write_key(field, &PLAIN_T_VALUES, &PLAIN_LIST, &good, &odd, &mut out), expected);
        }
    }
    let mut file = large_plain_key();
    file[11..13].copy_from_slice(&[1, 2]);
    file[19..21].copy_from_slice(&[128, 29]);
    refused(&file, 26);
    file[20] = 28;
    assert_eq!(read_key(&file).answer, 0);
}

/// Question 16 asks for the room that a key over the field needs. Question 17 asks for numbers below q.
#[test]
fn key_writer_refusals_in_order() {
    let good = identity_entries();
    let high = {
        let mut entries = good;
        entries[1] = 32;
        entries
    };
    let blank = [0; 57];
    let zero = [2, 1, 0, 3, 4, 5, 6, 255];
    let high_t_values = [1, 1, 2, 3, 4, 5, 6, 32];
    let not_one = [1, 255, 2, 3, 4, 5, 6, 7];
    let twice = [0, 0, 2, 3, 4, 5, 6, 7];
    let plain = PLAIN_T_VALUES;
    for (t_values, labels, first, second, room, small, large) in [
        (zero, twice, blank, high, 82, 16, 16),
        (zero, twice, blank, high, 83, 17, 16),
        (zero, twice, blank, high, 127, 17, 16),
        (zero, twice, blank, high, 128, 17, 4),
        (not_one, twice, blank, high, 128, 17, 5),
        (high_t_values, twice, blank, high, 128, 17, 6),
        (plain, PLAIN_LIST, blank, high, 128, 17, 26),
        (plain, PLAIN_LIST, high, blank, 128, 17, 26),
        (plain, PLAIN_LIST, high, high, 128, 17, 0),
        (high_t_values, PLAIN_LIST, good, good, 128, 17, 0),
        (plain, PLAIN_LIST, good, good, 127, 0, 16),
        (plain, PLAIN_LIST, good, good, 83, 0, 16),
        (plain, PLAIN_LIST, good, good, 82, 16, 16),
        (plain, PLAIN_LIST, good, good, 0, 16, 16),
    ] {
        for (field, bytes, expected) in [(Gf32, 83, small), (Gf256, 128, large)] {
            let mut out = vec![0xAA; room];
            assert_eq!(write_key(field, &t_values, &labels, &first, &second, &mut out), expected);
            let written = if expected == 0 { bytes } else { 0 };
            assert!(out[written..].iter().all(|byte| *byte == 0xAA), "bytes past the key changed");
        }
    }
}

// ---- Digests ----

/// The encoder accepts 32 or 64 bytes. Half byte 0 is b7 b7, and document 01 gives half byte 6. 64 zero bytes give 256
/// letters b7. 32 zero bytes and 32 bytes 66 give 128 letters b7 and then 64 times 12 letters, 896 in all.
#[test]
fn digests_as_words() {
    let sixes = "65 43 22 22 BC DE ";
    for (digest, expected) in [
        (vec![0; 32], format!("00 80 {}", "66 ".repeat(64))),
        (vec![0; 64], format!("01 00 {}", "66 ".repeat(128))),
        (vec![0x66; 64], format!("06 00 {}", sixes.repeat(128))),
        ([[0; 32], [0x66; 32]].concat(), format!("03 80 {}{}", "66 ".repeat(64), sixes.repeat(64))),
        (vec![0xFF; 64], format!("0A 00 {}", "65 43 21 00 00 00 00 9A BC DE ".repeat(128))),
    ] {
        assert_eq!(output(|out| encode_digest(&digest, out)), hex(&expected));
    }
    for length in [0, 31, 33, 48, 63, 65, 96, 128] {
        refuses(8, 5_002, |out| encode_digest(&vec![0; length], out));
        refuses(15, 5_001, |out| encode_digest(&vec![0; length], out));
    }
}

// ---- The verdict and cloaking ----

/// The word file of `letters` letters b7, an even number.
fn sevens(letters: u16) -> Vec<u8> {
    let mut word = letters.to_be_bytes().to_vec();
    word.resize(2 + usize::from(letters) / 2, 0x66);
    word
}

/// The braid of 64 zero bytes is b7, 256 times, so this word gets 0 under the larger plain key. Let m = 6 × 7 = 18, the
/// product of b7's two T-values. 2 k letters have m^k in row 7, column 7. So 128 letters would need m^64 = 1. Then the
/// order of m would divide 64 and 255, and m would be 1, which it is not. The empty word would need m^128 = 1, which is
/// false for the same reason.
#[test]
fn verdicts() {
    assert_eq!(times(6, 7), 18);
    let key = large_plain_key();
    assert_eq!(verify(&key, &[0; 64], &sevens(256)), 0);
    assert_eq!(verify(&key, &[0; 64], &sevens(128)), 14);
    assert_eq!(verify(&key, &[0; 64], &hex("00 00")), 14);
    assert_eq!(verify(&plain_key(), &[0; 32], &sevens(128)), 0);
    let mut other = vec![0; 64];
    other[63] = 1;
    assert_eq!(verify(&key, &other, &sevens(256)), 14);
}

/// Question 8 asks for the digest length that goes with the key. It comes before the word's questions.
#[test]
fn digest_goes_with_the_key() {
    for length in 0..130 {
        for (key, bytes, letters) in [(plain_key(), 32, 128), (large_plain_key(), 64, 256)] {
            let digest = vec![0; length];
            assert_eq!(verify(&key, &digest, &sevens(letters)), if length == bytes { 0 } else { 8 });
            assert_eq!(verify(&key, &digest, &[]), if length == bytes { 9 } else { 8 });
        }
    }
}

/// If positions i and i + 1 have the same T-value t, n letters b_i have t + .. + t^n, t^n, 1 + .. + t^(n-1) in row i.
/// In the smaller field this is 0, 1, 0 for t = 2 and n = 31, since t^31 = 1 for all elements but zero. In the larger
/// field it is 0, 1, 0 for t = 2 and n = 255, since t^255 = 1. An odd number of letters does not bring the list back.
/// So 62 or 510 letters cloak. In the other field they do not: 62 is not a multiple of 255, the order of x in the
/// larger field, and 510 = 16 × 31 + 14 is not a multiple of 31.
#[test]
fn cloaking_in_the_keys_own_field() {
    let small = key_with_t_values("08 44 22 14 C7");
    let large = large_key_with_t_values("01 01 02 02 04 05 06 07");
    let yes = |key: &[u8], letters: u16| {
        let mut word = letters.to_be_bytes().to_vec();
        word.resize(2 + usize::from(letters).div_ceil(2), 0x22);
        if letters % 2 == 1 {
            *word.last_mut().expect("a word has letters") = 0x20;
        }
        let Cloak { answer, yes } = cloaks(key, &PLAIN_LIST, &word);
        assert_eq!(answer, 0);
        yes
    };
    for (letters, in_small, in_large) in
        [(0, true, true), (31, false, false), (62, true, false), (255, false, false), (510, false, true)]
    {
        assert_eq!((yes(&small, letters), yes(&large, letters)), (in_small, in_large), "{letters}");
    }
    for key in [plain_key(), large_plain_key()] {
        assert_eq!(cloaks(&key, &PLAIN_LIST, &hex("00 02 00")), Cloak { answer: 0, yes: true });
        assert_eq!(cloaks(&key, &PLAIN_LIST, &hex("00 02 22")), Cloak { answer: 0, yes: false });
        assert_eq!(cloaks(&key, &[], &[]), Cloak { answer: 25, yes: false });
    }
}

/// Under T-values 1 1 2 2 4 5 6 7, 255 letters b3 bring the matrix back but not the list. The verdict does not compare
/// lists, so it is still 0.
#[test]
fn lists_are_not_compared() {
    let key = large_key_with_t_values("01 01 02 02 04 05 06 07");
    let word = hex(&format!("01 FF {} {}20", "66 ".repeat(128), "22 ".repeat(127)));
    assert_eq!(verify(&key, &[0; 64], &word), 0);
    let shorter = hex(&format!("01 FE {} {}", "66 ".repeat(128), "22 ".repeat(127)));
    assert_eq!(verify(&key, &[0; 64], &shorter), 14);
}

// ---- The desk ----

/// Bytes 1 and 2 of the input, counted from 0, decide where it is cut.
#[test]
fn desk_cuts_by_bytes_1_and_2() {
    for (input, expected) in [
        ("", Gf32),
        ("08", Gf32),
        ("08 01", Gf32),
        ("08 01 00", Gf256),
        ("00 01 00", Gf256),
        ("FF 01 00 FF", Gf256),
        ("01 00 20", Gf32),
        ("08 00 20", Gf32),
        ("08 01 20", Gf32),
        ("08 00 00", Gf32),
        ("01 00 01 00", Gf32),
        ("08 10 00", Gf32),
    ] {
        assert_eq!(desk::field_told(&hex(input)), expected, "{input}");
    }
    let mut input: Vec<u8> = (0..6_000).map(|place| (place % 251) as u8).collect();
    for (q, cuts) in [([1, 0], [128, 192, 5_195]), ([0, 32], [83, 115, 5_118]), ([1, 1], [83, 115, 5_118])] {
        input[1..3].copy_from_slice(&q);
        let [key, digest, signature] = desk::parts(&input);
        assert_eq!(key, &input[..cuts[0]]);
        assert_eq!(digest, &input[cuts[0]..cuts[1]]);
        assert_eq!(signature, &input[cuts[1]..cuts[2]]);
        let [key, digest, signature] = desk::parts(&input[..100]);
        assert_eq!(key.len() + digest.len(), 100);
        assert_eq!((key.len(), signature.len()), (cuts[0].min(100), 0));
    }
}

/// Slips of the larger size, of the smaller size, and keys of one size with the q of the other.
#[test]
fn desk_answers() {
    let joined = |parts: &[&[u8]]| desk::answer(&parts.concat());
    let (small, large) = (plain_key(), large_plain_key());
    assert_eq!(desk::answer(&[]), 1);
    assert_eq!(joined(&[&large, &[0; 64], &sevens(256)]), 0);
    assert_eq!(joined(&[&large, &[0; 64], &hex("00 00")]), 14);
    assert_eq!(joined(&[&large, &[0; 64], &sevens(256), &[0]]), 11);
    assert_eq!(joined(&[&large, &[0; 64]]), 9);
    assert_eq!(joined(&[&large, &[0; 63]]), 8);
    assert_eq!(joined(&[&large, &[0; 32]]), 8);
    assert_eq!(joined(&[&large]), 8);
    assert_eq!(joined(&[&large[..127]]), 1);
    assert_eq!(joined(&[&large[..84]]), 1);
    // 83 bytes are the length of a smaller key, but q is 256
    assert_eq!(joined(&[&large[..83]]), 3);
    assert_eq!(joined(&[&large[..82]]), 1);
    assert_eq!(joined(&[&small, &[0; 32], &sevens(128)]), 0);
    // the digest is cut after 32 bytes, so the word begins with 00 00: no letters, but more bytes follow
    assert_eq!(joined(&[&small, &[0; 64], &sevens(128)]), 11);
    // a key of 128 bytes with q = 32 is cut at 83 bytes, and the first five bits of its T-values are 0
    let says_32 = [&hex("08 00 20"), &large[3..]].concat();
    assert_eq!(joined(&[&says_32, &[0; 64], &sevens(256)]), 4);
    // a key of 83 bytes with q = 256 is cut at 128 bytes, and the eight bytes of its T-values have zeros
    let says_256 = [&hex("08 01 00"), &small[3..]].concat();
    assert_eq!(joined(&[&says_256, &[0; 32], &sevens(128)]), 4);
    assert_eq!(joined(&[&says_256, &[0; 32]]), 1);
    assert_eq!(joined(&[&says_256]), 3);
}
