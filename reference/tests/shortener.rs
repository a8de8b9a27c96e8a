//! Shortening. Small words have results worked out by hand. For seeded words and signatures, the tests check that the
//! shorter word is the same braid: they compare pairs, exponent sums and crossings. No check depends on how the search
//! works.

mod common;

use common::{output, Random};
use reference::handles::after_steps;
use reference::reduce::freely_reduced;
use reference::shortener::{shortened, swap_cancelled, with_arcs, without_handles};
use reference::testkit::cloaks::inverse_word;
use reference::testkit::signatures;
use reference::word::word_file;
use reference::{letters, shorten, Written};

const ROUNDS: usize = 300;

/// The half twist of all eight strands: every two strands cross once.
fn half_twist() -> Vec<u8> {
    (1..8).rev().flat_map(|strands| 0..strands).collect()
}

fn assert_shortens(random: &mut Random, codes: &[u8], effort: u16) -> usize {
    let new = shortened(codes, effort);
    let fault = random.fault_of_shorter(codes, &new);
    assert_eq!(fault, None, "effort {effort}: {codes:?} to {new:?}");
    new.len()
}

/// b1 b3 b1⁻¹ is b3 by a swap. b1 b2 b1 b2⁻¹ b1⁻¹ is b2 by a turn. Its inverse and its mirror images also become one
/// letter by a turn.
#[test]
fn words_by_hand() {
    assert_eq!(swap_cancelled(&[0, 2, 8]), [2]);
    assert_eq!(swap_cancelled(&[0, 1, 8]), [0, 1, 8]);
    assert_eq!(swap_cancelled(&[0, 2, 4, 10, 8, 12]), []);
    for effort in [0, 1, 5, u16::MAX] {
        assert_eq!(shortened(&[], effort), []);
        assert_eq!(shortened(&[6], effort), [6]);
        assert_eq!(shortened(&[0, 2, 8], effort), [2]);
    }
    for (word, braid) in
        [([0, 1, 0, 9, 8], 1), ([8, 9, 8, 1, 0], 9), ([5, 4, 5, 12, 13], 4), ([3, 2, 11, 10, 11], 10)]
    {
        assert_eq!(shortened(&word, 0), word);
        assert_eq!(shortened(&word, 5), [braid]);
    }
}

/// Words that arcs alone do not shorten enough: a word and its inverse, far letters between a word and its inverse, and
/// many half twists.
#[test]
fn words_that_need_more_than_arcs() {
    let mut random = Random::seeded(81);
    let word = random.word(5_000);
    assert_eq!(shortened(&[&word[..], &inverse_word(&word)].concat(), 0), []);
    // a word of b1 and b2 and its inverse, with letters b4 to b7 between them
    let side: Vec<u8> = (0..2_000).map(|_| random.pick(&[0, 1, 8, 9])).collect();
    let far: Vec<u8> = (0..1_000).map(|_| random.pick(&[3, 4, 5, 6, 11, 12, 13, 14])).collect();
    let there_and_back = [&side[..], &far, &inverse_word(&side)].concat();
    assert_eq!(shortened(&there_and_back, 0), swap_cancelled(&far));
    // 20 half twists are 10 full twists, and a full twist commutes with every letter
    let twists = half_twist().repeat(20);
    let around = [&twists[..], &[3], &inverse_word(&twists)].concat();
    assert_eq!(shortened(&around, 1), [3]);
    assert!(with_arcs(&around, 1).len() > 100);
}

/// A positive word and a power of one letter cannot become shorter.
#[test]
fn words_that_stay() {
    let mut random = Random::seeded(82);
    let positive: Vec<u8> = (0..500).map(|_| random.below(7) as u8).collect();
    assert_eq!(shortened(&positive, 5).len(), 500);
    assert_eq!(shortened(&[9; 1_000], 5), [9; 1_000]);
}

/// `shortener` removes handles with a stack, and `handles` removes them by the definition. Both leave the same word.
#[test]
fn handles_by_a_stack() {
    let mut random = Random::seeded(85);
    let mut taken = 0;
    for _ in 0..ROUNDS {
        let length = random.within(0, 60);
        let word = random.tangled_word(length);
        let reduced = without_handles(&word);
        assert_eq!(reduced, after_steps(&word, u16::MAX));
        taken += usize::from(reduced != Some(word));
    }
    assert!(taken > ROUNDS / 2);
    // for b1, 9,000 times b2, b1⁻¹ the first step leaves more than 10,000 letters
    let full = [&[0][..], &[1; 9_000], &[8]].concat();
    assert_eq!((without_handles(&full), after_steps(&full, 1)), (None, None));
}

#[test]
fn shorter_words_are_the_same_braid() {
    let mut random = Random::seeded(83);
    let (mut before, mut after) = (0, 0);
    for round in 0..ROUNDS {
        let length = random.within(0, if round % 10 == 0 { 400 } else { 40 });
        let word = if round % 2 == 0 { random.word(length) } else { random.tangled_word(length) };
        for codes in [freely_reduced(&word), word] {
            before += codes.len();
            let effort = random.pick(&[0, 1, 2, 5, 20]);
            after += assert_shortens(&mut random, &codes, effort);
        }
    }
    assert!(after < before * 3 / 4, "{before} letters became {after}");
}

#[test]
fn signatures_are_the_same_braid() {
    let mut random = Random::seeded(84);
    for class in ["sig32", "sig256", "stoch32"] {
        let words = signatures(class);
        assert!(words.len() > 3, "{class} has words");
        for word in &words[..2] {
            let codes = letters(word);
            assert!(!codes.is_empty());
            assert_shortens(&mut random, &codes, 5);
        }
    }
}

/// The answers of `shorten`, and the file that it writes.
#[test]
fn files() {
    let file = word_file(&[0, 1, 0, 9, 8]);
    assert_eq!(output(|out| shorten(&file, 5, out)), word_file(&[1]));
    assert_eq!(shorten(&file, 5, &mut [0; 5_001]), Written { answer: 15, bytes: 0 });
    assert_eq!(shorten(&[0, 1, 7], 0, &mut [0; 5_002]), Written { answer: 13, bytes: 0 });
    assert_eq!(shorten(&[], 0, &mut [0; 5_001]), Written { answer: 15, bytes: 0 });
}
