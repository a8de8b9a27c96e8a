//! Demand 3 on seeded samples. If the word and the move list are accepted, the new word is accepted too. It carries
//! every pair to the same pair as the old word, has the same exponent sum, and gets the same verdict.

mod common;

use common::{output, Random};
use reference::letter::{codes_of, letters_of};
use reference::pair::carried;
use reference::rewrite::{move_answer, moves, Move, MOST_MOVES};
use reference::testkit::matrices::has_key_shape;
use reference::testkit::{accepted_slip, exponent_sum, inverse_matrix, move_list, Slip};
use reference::word::word_file;
use reference::{free_reduce, letters, read_key, read_word, rewrite, verify, Field};

const ROUNDS: usize = 300;

/// A random accepted list of at most `most` moves for the word, and the file of the word that it leaves.
fn rewriting(random: &mut Random, codes: &[u8], most: usize) -> (Vec<u8>, Vec<u8>) {
    let count = random.within(0, most);
    let walk = random.walk(codes, count);
    let list = move_list(&walk.moves);
    assert_eq!(moves(&list), walk.moves);
    let file = output(|out| rewrite(&word_file(codes), &list, out));
    assert_eq!(file, word_file(&codes_of(&walk.word)));
    (list, file)
}

/// The new word must be accepted. It must have the old word's exponent sum, and it must carry a random pair over either
/// field to the same pair as the old word.
fn assert_same_braid(random: &mut Random, old: &[u8], file: &[u8]) {
    assert_eq!(read_word(file).answer, 0);
    let new = letters(file);
    for field in Field::BOTH {
        let (pair, t_values) = (random.pair(field), random.t_values(field));
        assert_eq!(carried(field, &pair, &t_values, old), carried(field, &pair, &t_values, &new));
    }
    assert_eq!(exponent_sum(old), exponent_sum(&new));
}

#[test]
fn pairs_and_exponent_sums_stay() {
    let mut random = Random::seeded(31);
    let mut kinds = [0; 256];
    for round in 0..ROUNDS {
        let length = random.within(0, 40);
        let codes = random.tangled_word(length);
        let (list, file) = rewriting(&mut random, &codes, if round % 10 == 0 { 300 } else { 30 });
        assert_same_braid(&mut random, &codes, &file);
        for step in moves(&list) {
            kinds[usize::from(step.kind)] += 1;
        }
    }
    let made: Vec<usize> = (0..256).filter(|kind| kinds[*kind] > 0).collect();
    let insertions = (16..=22).chain(24..=30);
    assert_eq!(made, [1, 2, 3].into_iter().chain(insertions).collect::<Vec<usize>>());
    assert!(made.iter().all(|kind| kinds[*kind] >= 50));
}

#[test]
fn long_words_and_long_lists() {
    let mut random = Random::seeded(32);
    for (letters, moves) in [(0, MOST_MOVES), (3_000, 1_000), (9_990, MOST_MOVES), (10_000, 500)] {
        let codes = random.tangled_word(letters);
        let walk = random.walk(&codes, moves);
        assert_eq!(walk.moves.len(), moves);
        let file = output(|out| rewrite(&word_file(&codes), &move_list(&walk.moves), out));
        assert_same_braid(&mut random, &codes, &file);
    }
}

/// The verdict on an accepted slip stays 0. The verdict on that slip with another word also stays what it was.
#[test]
fn verdicts_stay() {
    let mut random = Random::seeded(33);
    for field in Field::BOTH {
        let mut answers = [0; 15];
        for round in 0..60 {
            let length = random.within(0, 50);
            let codes = random.tangled_word(length);
            let slip = accepted(&mut random, field, &codes);
            let judged = if round % 2 == 0 { codes } else { random.tangled_word(length) };
            let before = verify(&slip.key, &slip.digest, &word_file(&judged));
            assert!(before == 0 || round % 2 == 1);
            let (_, file) = rewriting(&mut random, &judged, 60);
            assert_eq!(verify(&slip.key, &slip.digest, &file), before);
            let reduced = output(|out| free_reduce(&file, out));
            assert_eq!(verify(&slip.key, &slip.digest, &reduced), before);
            answers[usize::from(before)] += 1;
        }
        assert_eq!(answers[0] + answers[14], 60);
        assert!(answers[14] > 20);
    }
}

/// The key, the digest and the word are chosen independently, so the verdict is 14, before and after.
#[test]
fn verdicts_of_free_keys_stay() {
    let mut random = Random::seeded(34);
    for round in 0..40 {
        let field = Field::BOTH[round % 2];
        let key = random.invertible_key(field);
        let (digest, codes) = (random.digest(field), random.tangled_word(20));
        let before = verify(&key, &digest, &word_file(&codes));
        let (_, file) = rewriting(&mut random, &codes, 40);
        assert_eq!((before, verify(&key, &digest, &file)), (14, 14));
    }
}

/// An accepted slip with a random digest.
fn accepted(random: &mut Random, field: Field, codes: &[u8]) -> Slip {
    let digest = random.digest(field);
    random.accepted_slip(field, &digest, codes)
}

// ---- The tools of these tests ----

/// A slip is made by solving for the matrix of Pub(S'). Letters keep the shape of a key's matrix, so the solution fits
/// into a key file. It has an inverse because the matrix of Pub(S) has one. The slip is accepted, but not with another
/// digest.
#[test]
fn solved_slips_are_accepted() {
    let mut random = Random::seeded(36);
    for round in 0..40 {
        let field = Field::BOTH[round % 2];
        let (t_values, codes, digest) = (random.key_t_values(field), random.word(30), random.digest(field));
        let pair = random.invertible_key_pair(field);
        assert!(has_key_shape(&carried(field, &pair, &t_values, &codes).matrix));
        let slip = accepted_slip(field, &t_values, &pair, &digest, &codes);
        let key = read_key(&slip.key);
        assert_eq!((key.answer, key.field, key.t_values, key.pair), (0, field, t_values, pair));
        assert!(inverse_matrix(field, &key.second).is_some());
        assert_eq!(verify(&slip.key, &slip.digest, &slip.word), 0);
        assert_eq!(verify(&slip.key, &random.digest(field), &slip.word), 14);
    }
}

/// Every move that a walk draws is possible. On short words it draws every possible move sooner or later.
#[test]
fn walks_reach_every_possible_move() {
    let mut random = Random::seeded(37);
    let word = letters_of(&[0, 8, 2, 0, 1, 0]);
    let kinds = [1, 2, 3].into_iter().chain(16..=22).chain(24..=30);
    let steps = kinds.flat_map(|kind| (0..=7).map(move |place| Move { place, kind }));
    let mut missing: Vec<Move> = steps.filter(|step| move_answer(&word, *step) == 0).collect();
    assert_eq!(missing.len(), 1 + 2 + 1 + 14 * 7); // b1 b1⁻¹; b1⁻¹ b3 and b3 b1; b1 b2 b1; all insertions
    for _ in 0..10_000 {
        let step = random.possible_move(&word).expect("an insertion is always possible");
        assert_eq!(move_answer(&word, step), 0);
        missing.retain(|other| *other != step);
    }
    assert!(missing.is_empty(), "{missing:?}");
}

#[test]
fn exponent_sums() {
    assert_eq!(exponent_sum(&[]), 0);
    assert_eq!(exponent_sum(&[0, 6, 3, 8]), 2);
    assert_eq!(exponent_sum(&[0x8, 0xE, 0xB, 0]), -2);
}
