//! Cloaks anywhere (document 02, section 12). If a word cloaks for the list that a signature reaches at some place, it
//! can be inserted at this place without changing the verdict. The first tests use the slips of document 01, the others
//! use seeded samples.

mod common;

use std::collections::BTreeSet;

use common::{file, hex, output, plain_key, plain_key_over, Random, PLAIN_LIST, PLAIN_T_VALUES};
use reference::letter::codes_of;
use reference::pair::{carried, list_reached, Labels};
use reference::testkit::cloaks::{half_power, inverse_word, order};
use reference::testkit::{accepted_slip, inserted, move_list};
use reference::{cloaks, letters, rewrite, start, verify, Cloak, Field, Pair};
use Field::{Gf256, Gf32};

const YES: Cloak = Cloak { answer: 0, yes: true };
const NO: Cloak = Cloak { answer: 0, yes: false };

// ---- By hand ----

/// The verdict on a word with the plain key and 32 zero bytes. 128 letters b7 get 0. They do not move the labels 0 to
/// 5.
fn judged(codes: &[u8]) -> u8 {
    verify(&plain_key(), &[0; 32], &file(codes))
}

/// b1 b1 cloaks for the list 0 to 7, which the signature reaches at each even place. At odd places the list is 0 to 5,
/// 7, 6. There b1 b1 cloaks too, since labels 0 and 1 are still at positions 1 and 2.
#[test]
fn b1_b1_in_the_slip() {
    let sevens = [6; 128];
    assert_eq!(judged(&sevens), 0);
    assert_eq!(cloaks(&plain_key(), &PLAIN_LIST, &hex("00 02 00")), YES);
    assert!((0..=128).all(|place| judged(&inserted(&sevens, place, &[0, 0])) == 0));
}

/// After b2 the list is 0 2 1 3 to 7, and positions 1 and 2 have the T-values 1 and 2. b1 b1 does not cloak for this
/// list, but 62 letters b1 do, since 2 has the order 31. 62 letters b1 also cloak for 0 to 7, where both T-values are
/// 1. After b2 b1 the list is 2 0 1 3 to 7. b2 b2 cloaks for this list, but not for 0 to 7.
#[test]
fn the_list_reached_decides() {
    let word = [vec![1, 9], vec![6; 128]].concat();
    assert_eq!(judged(&word), 0);
    assert_eq!(judged(&inserted(&word, 1, &[0, 0])), 14);
    assert_eq!(judged(&inserted(&word, 1, &[0; 62])), 0);
    assert_eq!(judged(&inserted(&word, 0, &[0; 62])), 0);
    let word = [vec![1, 0, 8, 9], vec![6; 128]].concat();
    assert_eq!(judged(&inserted(&word, 2, &[1, 1])), 0);
    assert_eq!(judged(&inserted(&word, 0, &[1, 1])), 14);
    assert_eq!(judged(&inserted(&word, 4, &[1, 1])), 14);
}

/// After b2 the list is not the list of Pub(S). A word that cloaks only for the list of Pub(S) changes the verdict.
#[test]
fn the_list_of_the_key_does_not_decide() {
    let word = [vec![1, 9], vec![6; 128]].concat();
    let (b1_b1, reached) = (hex("00 02 00"), [0, 2, 1, 3, 4, 5, 6, 7]);
    assert_eq!(list_reached(&PLAIN_LIST, &word[..1]), reached);
    assert_eq!(cloaks(&plain_key(), &PLAIN_LIST, &b1_b1), YES);
    assert_eq!(cloaks(&plain_key(), &reached, &b1_b1), NO);
    assert_eq!([0, 1, 2].map(|place| judged(&inserted(&word, place, &[0, 0]))), [0, 14, 0]);
}

/// An even number of letters b1 cloaks for 0 to 7. A word may have at most 128 + 9,872 = 10,000 letters. An odd number
/// of letters b7 gets 14.
#[test]
fn at_most_10_000_letters() {
    let with_ones = |sevens: usize, ones: usize| judged(&inserted(&vec![6; sevens], 64, &vec![0; ones]));
    assert_eq!([with_ones(128, 9_870), with_ones(128, 9_872), with_ones(128, 9_874)], [0, 0, 10]);
    assert_eq!([with_ones(129, 0), with_ones(129, 9_870), with_ones(129, 9_872)], [14, 14, 10]);
}

/// The order of an element divides 31 in the smaller field, and 255 in the larger. 31 is a prime number. Each divisor d
/// of 255 is the order of φ(d) elements. 214 × 214 = 214 + 1, so 214 and 215 have the order 3.
#[test]
fn orders() {
    assert!((2..32).all(|element| order(Gf32, element) == 31));
    let count = |number| (1..=255).filter(|element| order(Gf256, *element) == number).count();
    assert_eq!([1, 3, 5, 15, 17, 51, 85, 255].map(count), [1, 2, 4, 8, 16, 32, 64, 128]);
    assert_eq!(Gf256.times(214, 214), 215);
    assert_eq!([1, 2, 214, 215].map(|element| order(Gf256, element)), [1, 255, 3, 3]);
}

/// 2 and 18 are reciprocals in the smaller field, 2 and 142 in the larger.
#[test]
fn half_powers() {
    assert_eq!([half_power(Gf32, 1, 1), half_power(Gf32, 2, 18), half_power(Gf32, 1, 2)], [1, 2, 31]);
    assert_eq!([half_power(Gf256, 1, 1), half_power(Gf256, 2, 142), half_power(Gf256, 1, 2)], [1, 2, 255]);
    assert_eq!([half_power(Gf256, 1, 214), half_power(Gf256, 214, 215)], [3, 2]);
    assert_eq!(inverse_word(&[0, 9, 6]), [14, 1, 8]);
    assert_eq!(inserted(&[1, 2], 1, &[5, 6]), [1, 5, 6, 2]);
}

// ---- On seeded samples ----

/// Twice the half power is the least number of letters b_i that bring a pair back. The test multiplies by one letter
/// after another until the pair comes back.
#[test]
fn half_powers_are_the_least() {
    let mut random = Random::seeded(41);
    for round in 0..400 {
        let (field, i) = (Field::BOTH[round % 2], random.below(7));
        let t_values = random.cloaking_t_values(field);
        let from = Pair::of(start().matrix, random.labels());
        let [a, b] = [i, i + 1].map(|place| t_values[usize::from(from.labels[place])]);
        let (mut pair, mut letters) = (from, 0);
        while letters == 0 || pair != from {
            pair = carried(field, &pair, &t_values, &[i as u8]);
            letters += 1;
        }
        assert_eq!(letters, 2 * half_power(field, a, b), "{field:?} {a} {b}");
    }
}

/// A cloaking word made of a power brings back every pair with its list, whatever the matrix. The samples meet all
/// orders.
#[test]
fn power_cloaks_cloak() {
    let mut random = Random::seeded(42);
    for (field, expected) in [(Gf32, &[1, 2, 31][..]), (Gf256, &[1, 2, 3, 5, 15, 17, 51, 85, 255])] {
        let mut halves = BTreeSet::new();
        for _ in 0..400 {
            let (t_values, labels) = (random.cloaking_t_values(field), random.labels());
            let conjugating = random.within(0, 8);
            let word = random.power_cloak(field, &t_values, &labels, conjugating);
            for pair in [Pair::of(start().matrix, labels), Pair::of(random.pair(field).matrix, labels)] {
                assert_eq!(carried(field, &pair, &t_values, &word), pair);
            }
            halves.insert(word.len() / 2 - conjugating);
        }
        assert!(halves.iter().eq(expected), "{halves:?}");
    }
}

/// w b_i b_i w⁻¹ cloaks for a list if w takes labels 0 and 1 to positions i and i + 1. For most other lists it does not
/// cloak.
#[test]
fn unit_cloaks_cloak() {
    let mut random = Random::seeded(45);
    let mut for_others = 0;
    for round in 0..200 {
        let (key, labels) = (plain_key_over(Field::BOTH[round % 2]), random.labels());
        let letters = random.within(0, 8);
        let word = random.unit_cloak(&labels, letters);
        assert!((2 * letters + 2..=2 * letters + 14).contains(&word.len()));
        assert_eq!(cloaks(&key, &labels, &file(&word)), YES);
        for_others += usize::from(cloaks(&key, &random.labels(), &file(&word)) == YES);
    }
    assert!((1..40).contains(&for_others), "{for_others}");
}

/// A word that cloaks for a list under the plain key over a field.
fn plain_cloak(random: &mut Random, field: Field, labels: &Labels) -> Vec<u8> {
    let letters = random.within(0, 6);
    random.power_cloak(field, &PLAIN_T_VALUES, labels, letters)
}

/// A cloaking word still cloaks after another cloaking word is inserted at any place.
#[test]
fn cloaks_in_cloaks() {
    let mut random = Random::seeded(43);
    for round in 0..100 {
        let (field, labels) = (Field::BOTH[round % 2], random.labels());
        let outer = plain_cloak(&mut random, field, &labels);
        let place = random.within(0, outer.len());
        let inner = plain_cloak(&mut random, field, &list_reached(&labels, &outer[..place]));
        let word = file(&inserted(&outer, place, &inner));
        assert_eq!(cloaks(&plain_key_over(field), &labels, &word), YES);
    }
}

/// The test inserts cloaking words and makes accepted moves, by turns. The verdict, 0 or 14, does not change.
#[test]
fn verdicts_stay() {
    let mut random = Random::seeded(44);
    for round in 0..60 {
        let (field, letters_before) = (Field::BOTH[round % 2], random.within(0, 30));
        let (t_values, pair) = (random.cloaking_t_values(field), random.invertible_key_pair(field));
        let (mut codes, digest) = (random.tangled_word(letters_before), random.digest(field));
        let slip = accepted_slip(field, &t_values, &pair, &digest, &codes);
        if round % 4 >= 2 {
            codes.push(6);
        }
        let before = verify(&slip.key, &digest, &file(&codes));
        assert_eq!(before, if round % 4 >= 2 { 14 } else { 0 });
        for _ in 0..3 {
            let place = random.within(0, codes.len());
            let reached = list_reached(&pair.labels, &codes[..place]);
            let word = match random.one_in(2) {
                true => random.unit_cloak(&reached, 5),
                false => random.power_cloak(field, &t_values, &reached, 5),
            };
            assert_eq!(cloaks(&slip.key, &reached, &file(&word)), YES);
            codes = inserted(&codes, place, &word);
            let walk = random.walk(&codes, 10);
            let moved = output(|out| rewrite(&file(&codes), &move_list(&walk.moves), out));
            for word in [file(&codes), moved.clone()] {
                assert_eq!(verify(&slip.key, &digest, &word), before);
            }
            codes = letters(&moved);
            assert_eq!(codes, codes_of(&walk.word));
        }
    }
}
