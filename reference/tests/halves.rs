//! The verdict in two halves (document 02, section 4). Expected values are typed from the papers, follow from the
//! papers by the reasoning beside them, or are answers of the whole verdict.

mod common;

use common::{
    blank_key_over, file, hex, key_with_matrices, key_with_t_values, large_key_with_t_values, output,
    plain_key_over, Random, PLAIN_LIST, PLAIN_T_VALUES,
};
use reference::digest::half_byte_braid;
use reference::matrix::{at, identity};
use reference::pair::carried;
use reference::testkit::{inverse_matrix, move_list};
use reference::word::word_file;
use reference::Field::{Gf256, Gf32};
use reference::{
    first_half, matrix_product, read_key, rewrite, second_half, start, verify, Field, Half, Halved, Matrix,
    Pair,
};

const ROUNDS: usize = 40;

/// The identity matrix with one row replaced. Rows count from 1.
fn with_row(row: usize, entries: [u8; 8]) -> Matrix {
    let mut matrix = identity();
    matrix[at(row, 1)..=at(row, 8)].copy_from_slice(&entries);
    matrix
}

/// A half with the plain key's T-values and Pub(S), and with this target.
fn plain_half(field: Field, target: Matrix) -> Half {
    Half { field, t_values: PLAIN_T_VALUES, pair: start(), target }
}

/// The word file of `letters` letters b7.
fn sevens(letters: u16) -> Vec<u8> {
    file(&vec![6; letters.into()])
}

/// The result of a refusal: zeros, and the field with 32 elements.
fn refused(answer: u8) -> Halved {
    let pair = Pair::ZEROS;
    Halved { answer, half: Half { field: Gf32, t_values: [0; 8], pair, target: [0; 64] } }
}

// ---- The first half ----

/// The target of a digest of zero bytes under the plain key, by hand. Only row 7 differs from the identity.
///
/// From the start b7 has 6, 6, 1 in columns 6, 7, 8 of row 7. The next T-value is 7, so b7 b7 has 6 + 7 × 6 = 20,
/// 7 × 6 = 18, 1 + 6 = 7. A zero byte is b7, four times. So n zero bytes have 20 × s, 18^2n, 7 × s, where
/// s = 1 + 18 + .. + 18^(2n - 1) = (18^2n + 1)/19.
///
/// 32 zero bytes over 32 elements: 18^64 = 18^2 = 9, since t^31 = 1. So s = 1 + 18 = 19, 20 × 19 = 30, 7 × 19 = 22.
///
/// 64 zero bytes over 256 elements: 18^128 is the square root of 18, since t^256 = t. The root is 129, since
/// 129^2 = x^14 + 1 = 19 + 1 = 18. With 128 = x^7 and 19 = x^14, s = 128/19 = 1/128 = 27, 20 × 27 = 193, 7 × 27 = 65.
fn zeros_target(field: Field) -> Matrix {
    match field {
        Gf32 => with_row(7, [0, 0, 0, 0, 0, 30, 9, 22]),
        Gf256 => with_row(7, [0, 0, 0, 0, 0, 193, 129, 65]),
    }
}

#[test]
fn half_of_the_plain_key() {
    for field in Field::BOTH {
        let halved = first_half(&plain_key_over(field), &vec![0; field.digest_bytes()]);
        assert_eq!(halved, Halved { answer: 0, half: plain_half(field, zeros_target(field)) });
    }
}

/// The second matrix is the right factor of the target. Its rows are rows 7 to 1 of the identity matrix, then row 8. So
/// row 7 of the product has 9 in column 1, 30 in column 2 and 22 in column 8. As the left factor it would put these
/// numbers into row 1, columns 6 to 8. The half holds Pub(S) unchanged.
#[test]
fn second_matrix_stands_at_the_right() {
    let mut turned = [0; 64];
    for row in 1..=7 {
        turned[at(row, 8 - row)] = 1;
    }
    turned[at(8, 8)] = 1;
    let mut target = turned;
    target[at(7, 1)..=at(7, 8)].copy_from_slice(&[9, 30, 0, 0, 0, 0, 0, 22]);
    let first = with_row(1, [1, 2, 3, 4, 5, 6, 7, 8]);
    let half = first_half(&key_with_matrices(Gf32, &first, &turned), &[0; 32]).half;
    assert_eq!(half.pair, Pair::of(first, PLAIN_LIST));
    assert_eq!(half.target, target);
}

/// If all T-values are 1, the matrix of a letter's square is the identity. Then the matrix of every digest's braid is
/// the identity too, and the target is the second matrix.
#[test]
fn targets_where_all_t_values_are_1() {
    let mut random = Random::seeded(61);
    for (key, digest) in [
        (key_with_t_values("08 42 10 84 21"), random.digest(Gf32)),
        (large_key_with_t_values("01 01 01 01 01 01 01 01"), random.digest(Gf256)),
    ] {
        let Halved { answer, half } = first_half(&key, &digest);
        assert_eq!((answer, half.target, half.t_values), (0, identity(), [1; 8]));
    }
}

/// The key's questions, also 26, come before 8. A refusal gives zeros.
#[test]
fn first_half_refusals() {
    for length in 0..130 {
        let digest = vec![0; length];
        for field in Field::BOTH {
            let expected = if length == field.digest_bytes() { 0 } else { 8 };
            let halved = first_half(&plain_key_over(field), &digest);
            assert_eq!(halved.answer, expected);
            assert!(expected == 0 || halved == refused(8));
            assert_eq!(first_half(&blank_key_over(field), &digest), refused(26));
        }
        assert_eq!(first_half(&[], &digest), refused(1));
        assert_eq!(first_half(&key_with_t_values("08 44 32 14 C0"), &digest), refused(4));
    }
}

/// The two facts that the target rests on: the braid of a half byte does not change the list, and its matrix has an
/// inverse.
#[test]
fn half_bytes_are_pure() {
    let mut random = Random::seeded(62);
    for (field, half) in Field::BOTH.into_iter().flat_map(|field| (0..16).map(move |half| (field, half))) {
        let (pair, t_values) = (random.pair(field), random.t_values(field));
        let after = carried(field, &pair, &t_values, &half_byte_braid(half));
        assert_eq!(after.labels, pair.labels);
        let reached = carried(field, &start(), &t_values, &half_byte_braid(half)).matrix;
        assert!(inverse_matrix(field, &reached).is_some());
    }
}

// ---- The second half ----

/// As in the whole verdict, 128 letters b7 sign 32 zero bytes, and 256 letters b7 sign 64. Other words get 14.
#[test]
fn words_for_zero_bytes() {
    for (field, letters) in [(Gf32, 128), (Gf256, 256)] {
        let half = plain_half(field, zeros_target(field));
        assert_eq!(second_half(&half, &sevens(letters)), 0);
        assert_eq!(second_half(&half, &sevens(letters / 2)), 14);
        assert_eq!(second_half(&half, &hex("00 00")), 14);
    }
}

/// A half is judged over the field that it names. From the start b3⁻¹ has 1, 1/3, 1/3 in row 3, where 1/3 is 28 over 32
/// elements and 244 over 256. 244 is not an element of the smaller field.
#[test]
fn halves_are_judged_over_their_field() {
    let word = hex("00 01 A0");
    for (third, small, large) in [(28, 0, 14), (244, 17, 0)] {
        let target = with_row(3, [0, 1, third, third, 0, 0, 0, 0]);
        assert_eq!(second_half(&plain_half(Gf32, target), &word), small);
        assert_eq!(second_half(&plain_half(Gf256, target), &word), large);
    }
}

/// Question 5 is not asked of a half: with T-value 3 at label 0, b1 has 3, 1 in row 1. Row 8 may hold any elements: b3
/// with T-value 2 turns a 5 in column 3 into 10, 10, 5 in columns 2, 3, 4.
#[test]
fn halves_that_no_key_has() {
    let half = Half {
        t_values: [3, 2, 1, 1, 1, 1, 1, 1],
        ..plain_half(Gf32, with_row(1, [3, 1, 0, 0, 0, 0, 0, 0]))
    };
    assert_eq!(second_half(&half, &hex("00 01 00")), 0);
    let mut target = with_row(3, [0, 2, 2, 1, 0, 0, 0, 0]);
    target[at(8, 1)..=at(8, 8)].copy_from_slice(&[0, 10, 10, 5, 0, 0, 0, 1]);
    let pair = Pair { matrix: with_row(8, [0, 0, 5, 0, 0, 0, 0, 1]), ..start() };
    assert_eq!(second_half(&Half { pair, ..plain_half(Gf32, target) }, &hex("00 01 20")), 0);
}

/// A half with these faults, each named as in `FAULTS`.
fn with_faults(field: Field, faults: &[&str]) -> Half {
    let mut half = plain_half(field, identity());
    for fault in faults {
        match *fault {
            "T-value 32" => half.t_values[0] = 32,
            "entry 32" => half.pair.matrix[at(8, 1)] = 32,
            "target 32" => half.target[at(1, 8)] = 32,
            "T-value 0" => half.t_values[7] = 0,
            "labels" => half.pair.labels[0] = 7,
            "no inverse" => half.pair.matrix[at(5, 5)] = 0,
            "target without inverse" => half.target[at(8, 8)] = 0,
            _ => unreachable!("{fault}"),
        }
    }
    half
}

/// The faults of a half in the order of their questions, each with its answer.
const FAULTS: [(&str, u8); 7] = [
    ("T-value 32", 17),
    ("entry 32", 17),
    ("target 32", 17),
    ("T-value 0", 4),
    ("labels", 6),
    ("no inverse", 26),
    ("target without inverse", 26),
];

/// Words, each with its answer for the half without faults.
const WORDS: [(&str, u8); 7] = [
    ("", 9),
    ("27 11", 10),
    ("00 02", 11),
    ("00 01 70", 12),
    ("00 01 01", 13),
    ("00 01 00", 14),
    ("00 00", 0),
];

/// Tests each fault alone and each two faults together. The half's questions come before the word's: 17, 4, 6, 26. Over
/// the larger field 32 is an element and not a fault.
#[test]
fn second_half_refusals_in_order() {
    for field in Field::BOTH {
        let number = |(name, number): (&str, u8)| match field {
            Gf256 if name.ends_with("32") => None,
            _ => Some(number),
        };
        for (first, second) in (0..7).flat_map(|first| (first..7).map(move |second| (first, second))) {
            let (first, second) = (FAULTS[first], FAULTS[second]);
            let half = with_faults(field, &[first.0, second.0]);
            let Some(expected) = number(first).or(number(second)) else { continue };
            for (word, _) in WORDS {
                assert_eq!(second_half(&half, &hex(word)), expected, "{field:?} {first:?} {second:?} {word}");
            }
        }
        for (word, expected) in WORDS {
            assert_eq!(second_half(&with_faults(field, &[]), &hex(word)), expected);
        }
    }
}

/// The second half refuses the zeros that a refused first half gives.
#[test]
fn zeros_are_refused() {
    assert_eq!(second_half(&refused(1).half, &hex("00 00")), 4);
    assert_eq!(second_half(&Half { field: Gf256, ..refused(1).half }, &[]), 4);
}

// ---- The whole and its halves ----

/// The answer by halves: the first half's refusal, or the answer of the second half to the result of the first.
fn by_halves(key: &[u8], digest: &[u8], word: &[u8]) -> u8 {
    match first_half(key, digest) {
        Halved { answer: 0, half } => second_half(&half, word),
        halved => {
            assert_eq!(halved, refused(halved.answer));
            halved.answer
        }
    }
}

/// Accepted slips, slips with another word, key or digest, and damaged slips get the same answer from the whole verdict
/// and from the halves. The target of an accepted key and digest has an inverse.
#[test]
fn whole_is_its_halves() {
    let mut random = Random::seeded(63);
    let mut answers = [0; 27];
    for round in 0..4 * ROUNDS {
        let field = Field::BOTH[round % 2];
        let (digest, codes) = (random.digest(field), random.tangled_word(round % 30));
        let slip = random.accepted_slip(field, &digest, &codes);
        let half = first_half(&slip.key, &digest).half;
        assert!(inverse_matrix(field, &half.target).is_some());
        let (other_key, other_digest) = (random.invertible_key(field), random.digest(field));
        let other_word = word_file(&random.tangled_word(20));
        let mut damaged = [slip.key.clone(), digest.clone(), slip.word.clone()];
        let part = random.below(3);
        let place = random.below(damaged[part].len() as u64);
        damaged[part][place] ^= 1 << random.below(8);
        let [bad_key, bad_digest, bad_word] = &damaged;
        for (key, digest, word, expected) in [
            (&slip.key, &digest, &slip.word, Some(0)),
            (&slip.key, &digest, &other_word, None),
            (&slip.key, &other_digest, &slip.word, Some(14)),
            (&other_key, &digest, &slip.word, None),
            (&slip.key, &digest[1..].to_vec(), &vec![], Some(8)),
            (bad_key, bad_digest, bad_word, None),
        ] {
            let whole = verify(key, digest, word);
            assert_eq!(by_halves(key, digest, word), whole);
            assert!(expected.is_none_or(|expected| expected == whole));
            answers[usize::from(whole)] += 1;
        }
    }
    assert!(answers[0] >= 4 * ROUNDS && answers[14] > 4 * ROUNDS && answers[8] >= 4 * ROUNDS);
}

/// The target is the matrix that the digest's whole braid reaches, times the matrix of Pub(S').
#[test]
fn targets_half_byte_by_half_byte() {
    let mut random = Random::seeded(64);
    for round in 0..ROUNDS {
        let field = Field::BOTH[round % 2];
        let (file, digest) = (random.invertible_key(field), random.digest(field));
        let (key, half) = (read_key(&file), first_half(&file, &digest).half);
        let braid = reference::digest::digest_braid(&digest);
        let reached = carried(field, &start(), &key.t_values, &braid).matrix;
        assert_eq!(half.target, matrix_product(field, &reached, &key.second));
        assert_eq!((half.field, half.t_values, half.pair), (field, key.t_values, key.pair));
    }
}

/// Demand 3 for halves: the second half gives a rewritten word the same answer as the original word. The half need not
/// come from a key.
#[test]
fn copies_are_judged_alike() {
    let mut random = Random::seeded(65);
    let mut answers = [0; 15];
    for round in 0..2 * ROUNDS {
        let field = Field::BOTH[round % 2];
        let (t_values, codes) = (random.t_values(field), random.tangled_word(round));
        let pair = Pair::of(random.invertible_matrix(field), random.labels());
        let target = carried(field, &pair, &t_values, &codes).matrix;
        let half = Half { field, t_values, pair, target };
        let judged = if round % 4 < 2 { codes } else { random.tangled_word(round) };
        let before = second_half(&half, &word_file(&judged));
        assert!(before == 0 || round % 4 >= 2);
        let list = move_list(&random.walk(&judged, 50).moves);
        let copy = output(|out| rewrite(&word_file(&judged), &list, out));
        assert_eq!(second_half(&half, &copy), before);
        let singular = random.singular_matrix(field);
        assert_eq!(second_half(&Half { target: singular, ..half }, &copy), 26);
        assert_eq!(second_half(&Half { pair: Pair { matrix: singular, ..pair }, ..half }, &copy), 26);
        answers[usize::from(before)] += 1;
    }
    assert!(answers[0] >= ROUNDS && answers[14] > ROUNDS / 2);
}
