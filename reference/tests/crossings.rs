//! How often two strands cross. Document 02's example and small words are worked out by hand. Seeded samples show that
//! rewriting and free reduction keep the numbers of all 28 pairs of strands, and that the sum of the 28 is the exponent
//! sum.

mod common;

use common::{hex, output, Random};
use reference::crossing::windings;
use reference::testkit::{exponent_sum, move_list};
use reference::word::word_file;
use reference::{crossings, free_reduce, letters, rewrite, Crossing};

const ROUNDS: usize = 200;

/// How often two strands cross in the word, which must be accepted.
fn number(word: &[u8], a: u8, b: u8) -> i32 {
    let Crossing { answer, crossings } = crossings(word, a, b);
    assert_eq!(answer, 0);
    crossings
}

/// The word 00 02 00 gives 2 for labels 0 and 1, and 0 for the other 27 pairs.
#[test]
fn the_paper_s_word() {
    let word = hex("00 02 00");
    let all = windings(&letters(&word));
    assert_eq!(all.len(), 28);
    for (a, b, winding) in all {
        assert_eq!(winding, if (a, b) == (0, 1) { 2 } else { 0 });
        assert_eq!(number(&word, a as u8, b as u8), winding);
    }
}

/// b1 exchanges labels 0 and 1. Label 0 is then at position 2, so b2 exchanges 0 and 2. A second b1 exchanges 1 and 2.
/// Inverse letters count minus 1. The order of the two labels does not matter.
#[test]
fn words_by_hand() {
    for (word, sign) in [("00 03 01 00", 1), ("00 03 89 80", -1)] {
        let word = hex(word);
        for (a, b, expected) in [(0, 1, sign), (0, 2, sign), (1, 2, sign), (0, 3, 0), (6, 7, 0)] {
            assert_eq!(number(&word, a, b), expected);
            assert_eq!(number(&word, b, a), expected);
        }
    }
    assert_eq!(number(&hex("00 02 08"), 0, 1), 0);
    assert_eq!(number(&hex("00 02 01"), 0, 2), 1);
    assert_eq!(number(&hex("00 02 01"), 1, 2), 0);
    let mut longest = hex("27 10");
    longest.resize(5_002, 0x88);
    assert_eq!(number(&longest, 0, 1), -10_000);
}

/// The word's questions come before 27, and a refusal gives 0.
#[test]
fn refusals() {
    let word = hex("00 02 00");
    for (a, b) in [(8, 0), (0, 8), (255, 255), (3, 3), (7, 8)] {
        assert_eq!(crossings(&word, a, b), Crossing { answer: 27, crossings: 0 });
        assert_eq!(crossings(&hex("00 01 70"), a, b), Crossing { answer: 12, crossings: 0 });
        assert_eq!(crossings(&[], a, b), Crossing { answer: 9, crossings: 0 });
    }
    assert_eq!(crossings(&hex("00 01 01"), 0, 1), Crossing { answer: 13, crossings: 0 });
}

#[test]
fn moves_and_reduction_keep_every_number() {
    let mut random = Random::seeded(71);
    for round in 0..ROUNDS {
        let letters_of_word = random.within(0, if round % 10 == 0 { 400 } else { 40 });
        let codes = random.tangled_word(letters_of_word);
        let moves = random.within(0, 40);
        let list = move_list(&random.walk(&codes, moves).moves);
        let before = windings(&codes);
        let file = output(|out| rewrite(&word_file(&codes), &list, out));
        assert_eq!(windings(&letters(&file)), before);
        let reduced = output(|out| free_reduce(&file, out));
        assert_eq!(windings(&letters(&reduced)), before);
    }
}

#[test]
fn together_they_are_the_exponent_sum() {
    let mut random = Random::seeded(72);
    for _ in 0..ROUNDS {
        let length = random.within(0, 300);
        let codes = random.word(length);
        let total: i32 = windings(&codes).into_iter().map(|(_, _, winding)| winding).sum();
        assert_eq!(i64::from(total), exponent_sum(&codes));
    }
}
