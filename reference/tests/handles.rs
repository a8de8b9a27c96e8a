//! Handle reduction and the shorter of two words (document 02, section 9). The expected values are worked out by hand
//! from the request's text, with the reasoning beside them. The code under test computed none of them.

mod common;

use common::{file, hex, Random, PLAIN_LIST, PLAIN_T_VALUES};
use reference::handles::{all_handles, Handle};
use reference::letter::letters_of;
use reference::reduce::freely_reduced;
use reference::testkit::exponent_sum;
use reference::{handle_reduce, multiply, shorter, start, Choice, Field, Handles};

/// The new word file, and whether the new word has a handle.
fn run(word: &[u8], limit: u16) -> (Vec<u8>, bool) {
    let mut out = vec![0xAA; 5_010];
    let Handles { answer, bytes, left } = handle_reduce(word, limit, &mut out);
    assert_eq!(answer, 0);
    assert!(out[bytes..].iter().all(|byte| *byte == 0xAA), "bytes after the word changed");
    out.truncate(bytes);
    (out, left)
}

/// Checks that handle reduction refuses with this answer: it reports 0 bytes and no handle, and leaves the output as it
/// was.
fn refuses(expected: u8, room: usize, word: &[u8], limit: u16) {
    let mut out = vec![0xAA; room];
    let refused = Handles { answer: expected, bytes: 0, left: false };
    assert_eq!(handle_reduce(word, limit, &mut out), refused);
    assert!(out.iter().all(|byte| *byte == 0xAA), "a refusal changed the output");
}

/// A word, a limit, the new word, and whether the new word has a handle.
const RUNS: [(&str, u16, &str, bool); 17] = [
    // no letters, and one letter
    ("00 00", 65_535, "00 00", false),
    ("00 01 60", 65_535, "00 01 60", false),
    // b1 b1⁻¹ and b7⁻¹ b7 are handles with no letter between their ends. With 0 steps the word stays
    ("00 02 08", 1, "00 00", false),
    ("00 02 E6", 1, "00 00", false),
    ("00 02 08", 0, "00 02 08", true),
    // b1 b2 b1⁻¹ is b2⁻¹ b1 b2
    ("00 03 01 80", 1, "00 03 90 10", false),
    // b1 b2⁻¹ b1⁻¹ is b2⁻¹ b1⁻¹ b2
    ("00 03 09 80", 1, "00 03 98 10", false),
    // b1⁻¹ b2 b1 is b2 b1 b2⁻¹
    ("00 03 81 00", 1, "00 03 10 90", false),
    // b1⁻¹ b2⁻¹ b1 is b2 b1⁻¹ b2⁻¹
    ("00 03 89 00", 1, "00 03 18 90", false),
    // b1 b3 b1⁻¹ is b3: letters of far generators stay
    ("00 03 02 80", 1, "00 01 20", false),
    // b2 b1 b2⁻¹ is no handle, because b_(i-1) stands between the ends
    ("00 03 10 90", 65_535, "00 03 10 90", false),
    // b1 b1 b1⁻¹: b_i may not stand between the ends, so the handle begins at the second b1. Its removal leaves b1
    ("00 03 00 80", 65_535, "00 01 00", false),
    // b1 b3 b3⁻¹ b1⁻¹: the inner handle ends earliest. One step leaves b1 b1⁻¹
    ("00 04 02 A8", 1, "00 02 08", true),
    // b1 b2 b3 b2⁻¹ b1⁻¹: b2 b3 b2⁻¹ ends earliest and is b3⁻¹ b2 b3. The first step leaves b1 b3⁻¹ b2 b3 b1⁻¹. The
    // second step leaves b3⁻¹ b2⁻¹ b1 b2 b3
    ("00 05 01 29 80", 1, "00 05 0A 12 80", true),
    ("00 05 01 29 80", 65_535, "00 05 A9 01 20", false),
    // b7 b7⁻¹ b1 b1⁻¹: the first step removes the handle that ends earliest
    ("00 04 6E 08", 1, "00 02 08", true),
    // b1 b2 b2 b1⁻¹ is b2⁻¹ b1 b2 b2⁻¹ b1 b2, which has the handle b2 b2⁻¹
    ("00 04 01 18", 1, "00 06 90 19 01", true),
];

#[test]
fn by_hand() {
    for (word, limit, new, left) in RUNS {
        assert_eq!(run(&hex(word), limit), (hex(new), left), "{word} in {limit} steps");
    }
}

/// All handles by the definition in the request: tests every two places, and every letter between them.
fn by_definition(codes: &[u8]) -> Vec<Handle> {
    let word = letters_of(codes);
    let places = |first: usize| (first + 1..word.len()).map(move |last| Handle { first, last });
    let is_handle = |handle: &Handle| {
        let i = word[handle.first].generator;
        let between = &word[handle.first + 1..handle.last];
        word[handle.last] == word[handle.first].inverted()
            && between.iter().all(|letter| letter.generator != i && letter.generator + 1 != i)
    };
    (0..word.len()).flat_map(places).filter(is_handle).collect()
}

#[test]
fn handles_are_those_of_the_definition() {
    let mut random = Random::seeded(9);
    for letters in 0..200 {
        let word = random.word(letters % 40);
        let handles: Vec<Handle> = all_handles(&letters_of(&word)).collect();
        assert_eq!(handles, by_definition(&word));
    }
}

/// Two handles never end at the same place.
#[test]
fn one_start_for_an_end() {
    let mut random = Random::seeded(10);
    for _ in 0..200 {
        let ends: Vec<usize> = by_definition(&random.word(60)).iter().map(|handle| handle.last).collect();
        let mut once = ends.clone();
        once.sort_unstable();
        once.dedup();
        assert_eq!(once.len(), ends.len());
    }
}

/// The new word and the old word have the same exponent sum and carry the starting pair to the same pair, over both
/// fields. A new word without handles is freely reduced.
#[test]
fn the_same_braid() {
    let mut random = Random::seeded(11);
    for letters in (0..60).chain([200, 500]) {
        let word = random.word(letters);
        for limit in [1, 7, 65_535] {
            let (new, left) = run(&file(&word), limit);
            let new = reference::letters(&new);
            assert_eq!(exponent_sum(&new), exponent_sum(&word));
            for field in [Field::Gf32, Field::Gf256] {
                assert_eq!(carried(field, &new), carried(field, &word));
            }
            assert!(left || freely_reduced(&new) == new);
        }
    }
}

/// The starting pair multiplied by a word.
fn carried(field: Field, codes: &[u8]) -> reference::Pair {
    let mut pair = start();
    assert_eq!(pair.labels, PLAIN_LIST);
    for code in codes {
        assert_eq!(multiply(&mut pair, field, &PLAIN_T_VALUES, *code), 0);
    }
    pair
}

/// The word b1, n times b2, b1⁻¹ has 3 × n letters after its first step.
#[test]
fn a_step_over_10_000_letters() {
    let word = |n: usize| file(&[&[0][..], &vec![1; n], &[8]].concat());
    // 3 × 3,333 is 9,999
    assert_eq!(reference::letters(&run(&word(3_333), 1).0).len(), 9_999);
    // 3 × 3,334 is 10,002. Later steps would shorten the word, but the first step is refused
    refuses(32, 5_002, &word(3_334), 1);
    refuses(32, 5_002, &word(3_334), 65_535);
    assert_eq!(run(&word(3_334), 0), (word(3_334), true));
    // with b7 before the word: 1 + 3 × 3,333 is 10,000
    let exact = file(&[&[6, 0][..], &[1; 3_333], &[8]].concat());
    assert_eq!(reference::letters(&run(&exact, 1).0).len(), 10_000);
}

#[test]
fn refusals_in_order() {
    refuses(15, 5_001, &[], 0);
    refuses(9, 5_002, &[], 0);
    refuses(10, 5_002, &hex("27 11"), 65_535);
    refuses(11, 5_002, &hex("00 01"), 1);
    refuses(12, 5_002, &hex("00 02 07"), 1);
    refuses(13, 5_002, &hex("00 01 08"), 1);
}

#[test]
fn shorter_of_two() {
    let (none, one, two) = (hex("00 00"), hex("00 01 00"), hex("00 02 01"));
    let chosen = |which| Choice { answer: 0, which };
    assert_eq!(shorter(&one, &none), chosen(2));
    assert_eq!(shorter(&none, &one), chosen(1));
    // the files of b1 b2 and of b1 both have 3 bytes. On a tie the first is chosen, although b1 has one letter less
    assert_eq!(shorter(&two, &one), chosen(1));
    assert_eq!(shorter(&one, &one), chosen(1));
    // the first file is checked before the second
    let refused = |answer| Choice { answer, which: 0 };
    assert_eq!(shorter(&[], &hex("27 11")), refused(9));
    assert_eq!(shorter(&hex("27 11"), &[]), refused(10));
    assert_eq!(shorter(&one, &hex("00 01")), refused(11));
    assert_eq!(shorter(&hex("00 01 70"), &one), refused(12));
    assert_eq!(shorter(&none, &hex("00 01 01")), refused(13));
}
