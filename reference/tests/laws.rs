//! Laws that hold for all inputs. If there are few inputs, the tests go through all of them. If there are many, they
//! use seeded random ones.

mod common;

use common::{hex, key_with_matrices, matrix_bytes, plain_key_over, Random, PLAIN_LIST, PLAIN_T_VALUES};
use reference::digest::digest_braid;
use reference::matrix::{at, identity};
use reference::pair::carried;
use reference::reduce::{cancels, freely_reduced};
use reference::testkit::inverse_matrix;
use reference::Field::{Gf256, Gf32};
use reference::{
    cloaks, encode_digest, file_entries, free_reduce, letters, matrix_product, multiply, product, read_key,
    read_word, reciprocal, write_key, write_word, Field, Key, Matrix, Pair, WordReader,
};

const ROUNDS: usize = 200;

/// The product of two elements. The product must be an element.
fn times(field: Field, left: u8, right: u8) -> u8 {
    let element = product(field, left, right);
    assert_eq!(element.answer, 0);
    assert!(u16::from(element.value) < field.size());
    element.value
}

/// The code of b_i, or of its inverse.
fn letter(generator: usize, inverse: bool) -> u8 {
    generator as u8 - 1 + if inverse { 8 } else { 0 }
}

/// The inverse word: the inverse letters in reverse order.
fn inverted(word: &[u8]) -> Vec<u8> {
    word.iter().rev().map(|code| code ^ 8).collect()
}

/// Two words must carry a random pair to the same pair, over both fields.
fn assert_equal_braids(random: &mut Random, left: &[u8], right: &[u8]) {
    for field in Field::BOTH {
        let (pair, t_values) = (random.pair(field), random.t_values(field));
        let carry = |word| carried(field, &pair, &t_values, word);
        assert_eq!(carry(left), carry(right), "{field:?} {left:X?} {right:X?}");
    }
}

// ---- The field ----

/// All products of a field. `field_laws` reads them from this table, because it needs each product many times.
fn table(field: Field) -> Vec<Vec<u8>> {
    let elements = || (0..=255).filter(|number| u16::from(*number) < field.size());
    elements().map(|a| elements().map(|b| times(field, a, b)).collect()).collect()
}

#[test]
fn field_laws() {
    for field in Field::BOTH {
        let table = table(field);
        let times = |a: usize, b: usize| usize::from(table[a][b]);
        let size = table.len();
        assert_eq!(size, field.size().into());
        for a in 0..size {
            assert_eq!((times(1, a), times(0, a)), (a, 0));
            for b in 0..size {
                assert_eq!(times(a, b), times(b, a));
                assert_eq!(times(a, b) == 0, a == 0 || b == 0);
                for c in 0..size {
                    assert_eq!(times(times(a, b), c), times(a, times(b, c)));
                    assert_eq!(times(a, b ^ c), times(a, b) ^ times(a, c));
                }
            }
        }
    }
}

/// A product with x is a shift, with x^5 = x^2 + 1 or x^8 = x^4 + x^3 + x^2 + 1. Together with `field_laws` this rule
/// determines every product.
#[test]
fn times_x() {
    for a in 0..32 {
        let shifted = 2 * a;
        assert_eq!(times(Gf32, 2, a), if shifted < 32 { shifted } else { shifted ^ 0b10_0101 });
    }
    for a in 0..=255 {
        let shifted = 2 * u16::from(a);
        let expected = if shifted < 256 { shifted } else { shifted ^ 0b1_0001_1101 };
        assert_eq!(u16::from(times(Gf256, 2, a)), expected);
    }
}

/// The product of an element and its reciprocal is 1, for all 31 elements other than zero and for all 255.
#[test]
fn reciprocals() {
    for (field, last) in [(Gf32, 31), (Gf256, 255)] {
        for a in 1..=last {
            let element = reciprocal(field, a);
            assert_eq!((element.answer, times(field, a, element.value)), (0, 1));
        }
    }
}

/// In the field with 32 elements a number above 31 is not an element. In the field with 256 every byte is an element.
#[test]
fn numbers_that_are_no_elements() {
    for a in 0..=255 {
        assert_eq!(reciprocal(Gf32, a).answer, [0, 4, 17][usize::from(a == 0) + 2 * usize::from(a > 31)]);
        assert_eq!(reciprocal(Gf256, a).answer, if a == 0 { 4 } else { 0 });
        for b in 0..=255 {
            assert_eq!(product(Gf32, a, b).answer, if a > 31 || b > 31 { 17 } else { 0 });
            assert_eq!(product(Gf256, a, b).answer, 0);
        }
    }
}

// ---- Matrices and pairs ----

#[test]
fn matrix_laws() {
    let mut random = Random(1);
    for round in 0..2 * ROUNDS {
        let field = Field::BOTH[round % 2];
        let times = |left: &Matrix, right: &Matrix| matrix_product(field, left, right);
        let (a, b, c) = (random.elements(field), random.elements(field), random.elements(field));
        assert_eq!((times(&a, &identity()), times(&identity(), &a)), (a, a));
        assert_eq!(times(&times(&a, &b), &c), times(&a, &times(&b, &c)));
    }
}

/// A pair times a letter as document 01 states it: the neighbours of column i gain multiples of the old column i.
fn by_columns(field: Field, pair: &Pair, t_values: &[u8; 8], i: usize, inverse: bool) -> Pair {
    let mut result = *pair;
    let t_value = |position: usize| t_values[usize::from(pair.labels[position - 1])];
    let (left, middle, right) = if inverse {
        let s = reciprocal(field, t_value(i + 1)).value;
        (1, s, s)
    } else {
        (t_value(i), t_value(i), 1)
    };
    for row in 1..=8 {
        let old = pair.matrix[at(row, i)];
        if i > 1 {
            result.matrix[at(row, i - 1)] ^= times(field, left, old);
        }
        result.matrix[at(row, i + 1)] ^= times(field, right, old);
        result.matrix[at(row, i)] = times(field, middle, old);
    }
    result.labels.swap(i - 1, i);
    result.positions = Pair::of(result.matrix, result.labels).positions;
    result
}

#[test]
fn letters_change_columns_as_document_01_says() {
    let mut random = Random(2);
    for _ in 0..ROUNDS {
        for i in 1..=7 {
            for (field, inverse) in [(Gf32, false), (Gf32, true), (Gf256, false), (Gf256, true)] {
                let (mut pair, t_values) = (random.pair(field), random.t_values(field));
                let expected = by_columns(field, &pair, &t_values, i, inverse);
                assert_eq!(multiply(&mut pair, field, &t_values, letter(i, inverse)), 0);
                assert_eq!(pair, expected);
                assert!(pair.has_inverse_lists());
            }
        }
    }
}

/// Document 02, section 5: after every word the label at the position of a is a, and the position of the label at
/// position i is i.
#[test]
fn lists_stay_inverse() {
    let mut random = Random(31);
    for round in 0..2 * ROUNDS {
        let field = Field::BOTH[round % 2];
        let (pair, t_values, word) = (random.pair(field), random.t_values(field), random.word(40));
        let after = carried(field, &pair, &t_values, &word);
        for (label, place) in (0..8).zip(0..) {
            let position = usize::from(after.positions[place]);
            assert_eq!(after.labels[position - 1], label);
            assert_eq!(usize::from(after.positions[usize::from(after.labels[place])]), place + 1);
        }
        assert!(after.has_inverse_lists());
    }
}

/// A letter multiplies from the right. So a factor from the left may be multiplied before the word or after it. The
/// verdict rests on this law.
#[test]
fn matrices_from_the_left_go_through() {
    let mut random = Random(3);
    for round in 0..2 * ROUNDS {
        let field = Field::BOTH[round % 2];
        let (pair, t_values, word) = (random.pair(field), random.t_values(field), random.word(9));
        let left = random.elements(field);
        let moved = Pair { matrix: matrix_product(field, &left, &pair.matrix), ..pair };
        let after = carried(field, &pair, &t_values, &word);
        let expected = Pair { matrix: matrix_product(field, &left, &after.matrix), ..after };
        assert_eq!(carried(field, &moved, &t_values, &word), expected);
    }
}

#[test]
fn cancellation() {
    let mut random = Random(4);
    for _ in 0..ROUNDS {
        for i in 1..=7 {
            assert_equal_braids(&mut random, &[letter(i, false), letter(i, true)], &[]);
            assert_equal_braids(&mut random, &[letter(i, true), letter(i, false)], &[]);
        }
    }
}

#[test]
fn far_commutation() {
    let mut random = Random(5);
    for _ in 0..ROUNDS / 10 {
        for (i, j) in (1..=7).flat_map(|i| (1..=7).map(move |j| (i, j))).filter(|(i, j)| i + 2 <= *j) {
            for (a, b) in [(false, false), (false, true), (true, false), (true, true)] {
                let (left, right) = (letter(i, a), letter(j, b));
                assert_equal_braids(&mut random, &[left, right], &[right, left]);
            }
        }
    }
}

#[test]
fn braid_relation() {
    let mut random = Random(6);
    for _ in 0..ROUNDS {
        for i in 1..=6 {
            for inverse in [false, true] {
                let (j, k) = (letter(i, inverse), letter(i + 1, inverse));
                assert_equal_braids(&mut random, &[j, k, j], &[k, j, k]);
            }
        }
    }
}

/// Source 003, appendix A: y_i = b_i .. b_7 satisfy y_j y_i = y_i y_(j-1) y_7⁻¹ for i < j.
#[test]
fn y_generators_of_source_003() {
    let y = |i: u8| (i - 1..7).collect::<Vec<u8>>();
    let mut random = Random(7);
    for j in 2..=7 {
        for i in 1..j {
            let right = [y(i), y(j - 1), inverted(&y(7))].concat();
            assert_equal_braids(&mut random, &[y(j), y(i)].concat(), &right);
        }
    }
}

/// The pure braid generator of source 003, section 9, equation (11).
fn pure(i: u8, j: u8) -> Vec<u8> {
    let down: Vec<u8> = (i + 1..j).rev().map(|generator| generator - 1).collect();
    [down.clone(), vec![i - 1, i - 1], inverted(&down)].concat()
}

/// The first three relations after equation (11) of source 003. The fourth cannot hold as printed: the exponent sums of
/// its two sides differ.
#[test]
fn pure_braid_relations_of_source_003() {
    let mut random = Random(8);
    for (r, s, i, j) in quadruples() {
        let left = [inverted(&pure(r, s)), pure(i, j), pure(r, s)].concat();
        let conjugated = |by: Vec<u8>| [by.clone(), pure(i, j), inverted(&by)].concat();
        if i < r && s < j || s < i {
            assert_equal_braids(&mut random, &left, &pure(i, j));
        } else if r < i && i == s {
            assert_equal_braids(&mut random, &left, &conjugated(pure(r, j)));
        } else if r == i && s < j {
            assert_equal_braids(&mut random, &left, &conjugated([pure(r, j), pure(s, j)].concat()));
        }
    }
}

/// All (r, s, i, j) with r < s and i < j among the eight strands.
fn quadruples() -> Vec<(u8, u8, u8, u8)> {
    let pairs = || (1..=8).flat_map(|a| (a + 1..=8).map(move |b| (a, b)));
    pairs().flat_map(|(r, s)| pairs().map(move |(i, j)| (r, s, i, j))).collect()
}

// ---- Words ----

#[test]
fn words_come_back() {
    let mut random = Random(9);
    for length in (0..ROUNDS).chain([4_999, 5_000, 9_999, 10_000]) {
        let codes = random.word(length);
        let mut out = vec![0x55; 5_002];
        let written = write_word(&codes, &mut out);
        assert_eq!((written.answer, written.bytes), (0, 2 + length.div_ceil(2)));
        assert!(out[written.bytes..].iter().all(|byte| *byte == 0x55));
        let file = &out[..written.bytes];
        assert_eq!(read_word(file).letters, length);
        assert_eq!(letters(file), codes);
        let (_, mut reader) = WordReader::open(file);
        let walked: Vec<u8> = std::iter::from_fn(|| reader.next_letter()).collect();
        assert_eq!(walked, codes);
    }
}

/// Random short files. An accepted file is written back byte for byte, and a refused file has no letters.
#[test]
fn word_files_come_back() {
    let mut random = Random(10);
    let (mut accepted, mut answers) = (0, [0; 14]);
    for _ in 0..20_000 {
        let (number, length) = (random.below(5) as u8, random.below(5));
        let mut file = vec![0, number];
        file.extend((0..length).map(|_| random.below(256) as u8));
        let word = read_word(&file);
        answers[usize::from(word.answer)] += 1;
        assert_eq!(letters(&file).len(), word.letters);
        if word.answer == 0 {
            accepted += 1;
            let mut out = vec![0; 5_002];
            assert_eq!(write_word(&letters(&file), &mut out).bytes, file.len());
            assert_eq!(out[..file.len()], file);
        }
    }
    assert!(accepted > 1_000 && answers[11] > 0 && answers[12] > 0 && answers[13] > 0);
}

// ---- Free reduction ----

/// A word with many cancelling neighbours.
fn tangled(random: &mut Random, rounds: usize) -> Vec<u8> {
    let mut word = random.word(12);
    for _ in 0..rounds {
        let place = random.below(word.len() as u64 + 1);
        let code = random.letter();
        word.splice(place..place, [code, code ^ 8]);
    }
    word
}

#[test]
fn free_reduction_is_unique() {
    let mut random = Random(11);
    for _ in 0..ROUNDS {
        let word = tangled(&mut random, 40);
        let reduced = freely_reduced(&word);
        assert!(reduced.windows(2).all(|two| !cancels(two[0], two[1])));
        assert_eq!(freely_reduced(&reduced), reduced);
        let mut other = word.clone();
        loop {
            let places: Vec<usize> =
                (1..other.len()).filter(|place| cancels(other[place - 1], other[*place])).collect();
            let Some(place) = places.get(random.below(places.len().max(1) as u64)) else { break };
            other.drain(place - 1..=*place);
        }
        assert_eq!(other, reduced, "another order of removal");
    }
}

#[test]
fn free_reduction_carries_the_same_pairs() {
    let mut random = Random(12);
    for _ in 0..ROUNDS {
        let word = tangled(&mut random, 20);
        assert_equal_braids(&mut random, &word, &freely_reduced(&word));
    }
}

#[test]
fn cancelling_letters() {
    for (first, second) in (0..=255).flat_map(|first| (0..=255).map(move |second| (first, second))) {
        let opposite = first < 15 && first % 8 != 7 && first ^ second == 8;
        assert_eq!(cancels(first, second), opposite, "{first} {second}");
    }
}

// ---- Keys ----

/// 26 if elimination finds that one of the matrices has no inverse over the field, otherwise 0.
fn inverse_answer(field: Field, matrices: [Matrix; 2]) -> u8 {
    if matrices.iter().all(|matrix| inverse_matrix(field, matrix).is_some()) {
        0
    } else {
        26
    }
}

#[test]
fn keys_come_back() {
    let mut random = Random(13);
    for round in 0..2 * ROUNDS {
        let (field, bytes) = [(Gf32, 83), (Gf256, 128)][round % 2];
        let (t_values, labels) = (random.key_t_values(field), random.labels());
        let (first, second) = (random.invertible_key_matrix(field), random.invertible_key_matrix(field));
        let entries = [file_entries(&first), file_entries(&second)];
        let mut file = vec![0x55; bytes + 2];
        assert_eq!(write_key(field, &t_values, &labels, &entries[0], &entries[1], &mut file), 0);
        assert_eq!(file[bytes..], [0x55, 0x55]);
        let key = read_key(&file[..bytes]);
        assert_eq!(key, Key { answer: 0, field, t_values, pair: Pair::of(first, labels), second });
        assert!([first, second].iter().all(|matrix| matrix[56..63] == [0; 7]));
    }
}

/// Keys with random matrix bytes. In the smaller field the filler is cleared. An accepted file is written back byte for
/// byte.
#[test]
fn key_files_come_back() {
    let mut random = Random(14);
    for field in Field::BOTH {
        let mut accepted = 0;
        for _ in 0..ROUNDS {
            let mut file = plain_key_over(field);
            for part in matrix_bytes(field) {
                file[part.clone()].copy_from_slice(&random.bytes(part.len()));
                if field == Gf32 {
                    file[part.end - 1] &= 0xF8;
                }
            }
            let key = read_key(&file);
            if key.answer == 26 {
                continue;
            }
            accepted += 1;
            assert_eq!((key.answer, key.field), (0, field));
            let mut out = vec![0; file.len()];
            let (first, second) = (file_entries(&key.pair.matrix), file_entries(&key.second));
            assert_eq!(write_key(field, &key.t_values, &key.pair.labels, &first, &second, &mut out), 0);
            assert_eq!(out, file);
        }
        assert!(accepted > ROUNDS / 2);
    }
}

/// Keys with many zeros in their matrices. Many of these matrices have no inverse. Writer and reader give the same
/// answer.
#[test]
fn keys_with_many_zeros() {
    let mut random = Random(17);
    for field in Field::BOTH {
        let mut refused = 0;
        for _ in 0..ROUNDS {
            let (first, second) = (random.sparse_key_matrix(field), random.sparse_key_matrix(field));
            let expected = inverse_answer(field, [first, second]);
            let (entries, others) = (file_entries(&first), file_entries(&second));
            let mut out = vec![0; 128];
            let answer = write_key(field, &PLAIN_T_VALUES, &PLAIN_LIST, &entries, &others, &mut out);
            assert_eq!(answer, expected);
            assert_eq!(read_key(&key_with_matrices(field, &first, &second)).answer, expected);
            refused += usize::from(expected == 26);
        }
        assert!((ROUNDS / 20..ROUNDS).contains(&refused), "{refused}");
    }
}

/// Flips each bit of the plain key. The answer is 7 exactly for the bits of filler, which the larger field does not
/// have. Of the matrix bits, those that hold a one of the diagonal give 26, because that one is the only entry of its
/// row. All other matrix bits give 0.
#[test]
fn filler_of_keys() {
    for (field, width, first, second, fillers) in
        [(Gf32, 5, 64..349, 376..661, [349..352, 661..664]), (Gf256, 8, 88..544, 568..1_024, [0..0, 0..0])]
    {
        let diagonal = [0, 9, 18, 27, 36, 45, 54, 56].map(|entry| width * entry + width - 1);
        for bit in 0..8 * plain_key_over(field).len() {
            let mut file = plain_key_over(field);
            file[bit / 8] ^= 0x80 >> (bit % 8);
            let answer = read_key(&file).answer;
            assert_eq!(answer == 7, fillers.iter().any(|filler| filler.contains(&bit)), "{bit}");
            for matrix in [&first, &second].into_iter().filter(|matrix| matrix.contains(&bit)) {
                let one = diagonal.contains(&(bit - matrix.start));
                assert_eq!(answer, if one { 26 } else { 0 }, "{bit}");
            }
        }
    }
}

// ---- Digests and cloaks ----

/// A digest's braid is pure. It is the braid of the digest's first bytes followed by the braid of the others. Its word
/// file is accepted.
#[test]
fn digest_braids() {
    let mut random = Random(15);
    for round in 0..ROUNDS / 2 {
        let field = Field::BOTH[round % 2];
        let digest = random.digest(field);
        let mut out = vec![0; 5_002];
        let written = encode_digest(&digest, &mut out);
        assert_eq!(written.answer, 0);
        let codes = letters(&out[..written.bytes]);
        assert_eq!(codes, digest_braid(&digest));
        assert_eq!(codes, [digest_braid(&digest[..11]), digest_braid(&digest[11..])].concat());
        let pair = random.pair(field);
        assert_eq!(carried(field, &pair, &random.t_values(field), &codes).labels, pair.labels);
    }
}

/// Source 003, proposition 4.2, and source 000, section 5.2: w b_i b_i w⁻¹ cloaks for a list if w takes labels 0 and 1
/// to positions i and i + 1. Its inverse, its powers and their free reductions cloak for this list too.
#[test]
fn cloaking_elements() {
    let mut random = Random(16);
    let keys = Field::BOTH.map(plain_key_over);
    let mut found = 0;
    while found < 20 {
        let (list, w, i) = (random.labels(), random.word(10), random.below(7) as u8);
        let reached = carried(Gf32, &Pair::of(reference::start().matrix, list), &[1; 8], &w).labels;
        if reached[usize::from(i)] > 1 || reached[usize::from(i) + 1] > 1 {
            continue;
        }
        found += 1;
        let element = [w.clone(), vec![i, i], inverted(&w)].concat();
        let mut out = vec![0; 5_002];
        for word in [element.clone(), inverted(&element), element.repeat(3)] {
            let bytes = write_word(&word, &mut out).bytes;
            let file = out[..bytes].to_vec();
            assert!(keys.iter().all(|key| cloaks(key, &list, &file).yes));
            let bytes = free_reduce(&file, &mut out).bytes;
            assert!(keys.iter().all(|key| cloaks(key, &list, &out[..bytes]).yes));
        }
    }
    assert!(keys.iter().all(|key| cloaks(key, &PLAIN_LIST, &hex("00 02 88")).yes));
}

/// b1 b1, 5,000 times, is as long as a word may be.
#[test]
fn longest_cloaking_word() {
    let mut word = hex("27 10");
    word.resize(5_002, 0);
    assert!(Field::BOTH.map(plain_key_over).iter().all(|key| cloaks(key, &PLAIN_LIST, &word).yes));
}
