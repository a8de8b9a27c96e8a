//! Key shelves (document 02, sections 8 and 14). The expected values follow from the requests' text and from the slips
//! of document 01. The code under test computed none of them.

mod common;

use common::{blank_key, large_plain_key, plain_key, plain_key_over};
use reference::shelf::SHELF_BYTES;
use reference::{Field, Shelf};

/// The word file of `letters` letters b7. The number must be even. Under a plain key 128 letters are a signature of 32
/// zero bytes, and 256 letters are a signature of 64 zero bytes.
fn sevens(letters: u16) -> Vec<u8> {
    [&letters.to_be_bytes()[..], &vec![0x66; usize::from(letters) / 2]].concat()
}

/// The word file of `letters` letters b1. Under a plain key it is no signature of zero bytes: the T-values of labels 0
/// and 1 are 1, so its matrix has the determinant 1. The matrix of the digest's 128 or 256 letters b7 has the
/// determinant (6 x 7)^64 or (6 x 7)^128, which is not 1.
fn ones(letters: u16) -> Vec<u8> {
    [&letters.to_be_bytes()[..], &vec![0x00; usize::from(letters).div_ceil(2)]].concat()
}

/// A signature of 32 zero bytes under the plain key, with this even number of letters, at least 128: b7, 128 times, and
/// then b1 with its inverse, again and again.
fn long_signature(letters: u16) -> Vec<u8> {
    [&letters.to_be_bytes()[..], &[0x66; 64], &vec![0x08; usize::from(letters) / 2 - 64]].concat()
}

/// Judges a word as a signature of 32 zero bytes.
fn judged(shelf: &mut Shelf, publisher: usize, number: usize, word: &[u8]) -> u8 {
    shelf.judge(publisher, number, &[0; 32], word)
}

/// A shelf that holds the plain key for both publishers under number 0, with these charges.
fn charged_with(charges: [u16; 2]) -> Shelf {
    let mut shelf = Shelf::empty();
    assert_eq!([1, 2].map(|publisher| shelf.load(publisher, 0, &plain_key())), [0, 0]);
    let bytes = shelf.bytes();
    let charges = charges.map(u16::to_be_bytes).concat();
    Shelf::of(&[&bytes[..1032], &charges].concat().try_into().unwrap())
}

/// Each publisher has its own key numbers. A key number holds the key of its last accepted load.
#[test]
fn a_history_of_two_publishers() {
    let (mut shelf, small, large) = (Shelf::empty(), plain_key(), large_plain_key());
    let opens = |shelf: &mut Shelf, publisher, number| {
        [32, 64].map(|bytes| shelf.judge(publisher, number, &vec![0; bytes], &sevens(4 * bytes as u16)))
    };
    assert_eq!(opens(&mut shelf, 1, 0), [31, 31]);
    assert_eq!(shelf.load(1, 0, &small), 0);
    assert_eq!(
        [(1, 0), (2, 0), (1, 1)].map(|at| opens(&mut shelf, at.0, at.1)),
        [[0, 8], [31, 31], [31, 31]]
    );
    assert_eq!(shelf.load(2, 0, &large), 0);
    assert_eq!([1, 2].map(|publisher| opens(&mut shelf, publisher, 0)), [[0, 8], [8, 0]]);
    // a refused load leaves the key, and an accepted load replaces it
    assert_eq!([&blank_key()[..], &[], &small[1..]].map(|key| shelf.load(2, 0, key)), [26, 1, 1]);
    assert_eq!(opens(&mut shelf, 2, 0), [8, 0]);
    assert_eq!(shelf.load(2, 0, &small), 0);
    assert_eq!(opens(&mut shelf, 2, 0), [0, 8]);
    // the first publisher may clear its number twice, and the second publisher's key stays
    assert_eq!([shelf.clear(1, 0), shelf.clear(1, 0)], [0, 0]);
    assert_eq!([1, 2].map(|publisher| opens(&mut shelf, publisher, 0)), [[31, 31], [0, 8]]);
    assert_eq!(shelf.judge(2, 0, &[0; 32], &[0, 0]), 14);
    assert_eq!(shelf.judge(2, 0, &[0; 32], &[0]), 9);
    // publisher 1 had 128 letters judged twice; publisher 2 had 256 letters twice and 128 letters twice
    assert_eq!(shelf.charged(), [256, 768]);
}

/// Answer 30 comes before all other answers, and the shelf stays as it is.
#[test]
fn nobody_has_a_number() {
    for (publisher, number) in [(0, 0), (3, 0), (1, 4), (2, 4), (257, 0), (1, usize::MAX)] {
        let mut shelf = Shelf::of(&[0xAA; SHELF_BYTES]);
        assert_eq!(shelf.load(publisher, number, &plain_key()), 30);
        assert_eq!(shelf.load(publisher, number, &[]), 30);
        assert_eq!(shelf.clear(publisher, number), 30);
        assert_eq!(shelf.judge(publisher, number, &[], &[]), 30);
        assert_eq!(shelf.held(publisher, number), None);
        assert_eq!(shelf.bytes(), [0xAA; SHELF_BYTES]);
    }
    for publisher in [0, 3, 257, usize::MAX] {
        let mut shelf = Shelf::of(&[0xAA; SHELF_BYTES]);
        assert_eq!(shelf.round(publisher), 30);
        assert_eq!(shelf.bytes(), [0xAA; SHELF_BYTES]);
    }
}

/// A shelf has eight slots of 129 bytes, and four bytes of charges. A slot has the length of the key file, the file,
/// and zeros.
#[test]
fn bytes_of_a_shelf() {
    let (small, large) = (plain_key(), large_plain_key());
    let mut shelf = Shelf::empty();
    assert_eq!(shelf.bytes(), [0; 1036]);
    assert_eq!([shelf.load(1, 3, &large), shelf.load(2, 2, &small)], [0, 0]);
    // the keys are in slots 3 and 6, counted from 0, and the slots start at bytes 387 and 774
    let mut bytes = vec![0; 1036];
    bytes[387] = 128;
    bytes[388..516].copy_from_slice(&large);
    bytes[774] = 83;
    bytes[775..858].copy_from_slice(&small);
    assert_eq!(shelf.bytes(), bytes);
    assert_eq!(Shelf::of(&bytes.clone().try_into().unwrap()), shelf);
    // a key of 83 bytes that replaces a key of 128 bytes leaves no byte of the old key
    assert_eq!(shelf.load(1, 3, &small), 0);
    bytes[387..516].fill(0);
    bytes[387] = 83;
    bytes[388..471].copy_from_slice(&small);
    assert_eq!(shelf.bytes(), bytes);
    // 128 letters are 00 80, and 10,000 letters are 27 10
    assert_eq!([judged(&mut shelf, 1, 3, &sevens(128)), judged(&mut shelf, 2, 2, &ones(10_000))], [0, 14]);
    bytes[1032..].copy_from_slice(&[0x00, 0x80, 0x27, 0x10]);
    assert_eq!(shelf.bytes(), bytes);
    assert_eq!(Shelf::of(&bytes.clone().try_into().unwrap()), shelf);
    // a new round clears both charges, and leaves every slot
    assert_eq!(shelf.round(1), 0);
    bytes[1032..].fill(0);
    assert_eq!(shelf.bytes(), bytes);
}

/// Any 1,036 bytes are a shelf, even if no load made them.
#[test]
fn any_bytes_are_a_shelf() {
    let judge = |length: u8, first: u8| {
        let mut bytes = [0; SHELF_BYTES];
        (bytes[0], bytes[1]) = (length, first);
        Shelf::of(&bytes).judge(1, 0, &[0; 32], &[0, 0])
    };
    // no key, a key of 1 byte, keys of 83 and of 128 zeros, whose N is not 8. A length over 128 counts as 128
    assert_eq!([judge(0, 8), judge(1, 8), judge(83, 0), judge(128, 0), judge(255, 0)], [31, 1, 2, 2, 2]);
    // N is 8, and q is 0
    assert_eq!([judge(83, 8), judge(128, 8), judge(129, 8)], [3, 3, 3]);
}

/// Each publisher is sure of 10,000 letters, and a further 10,000 go to whoever comes first. Publisher 1 takes all of
/// them, and publisher 2 still has its own 10,000.
#[test]
fn a_round_in_which_one_takes_all() {
    let mut shelf = charged_with([0, 0]);
    assert_eq!(judged(&mut shelf, 1, 0, &long_signature(10_000)), 0);
    assert_eq!(shelf.charged(), [10_000, 0]);
    assert_eq!(judged(&mut shelf, 1, 0, &ones(9_999)), 14);
    assert_eq!(judged(&mut shelf, 1, 0, &ones(2)), 36);
    assert_eq!(shelf.charged(), [19_999, 0]);
    assert_eq!([ones(1), ones(1), ones(0)].map(|word| judged(&mut shelf, 1, 0, &word)), [14, 36, 14]);
    assert_eq!(shelf.charged(), [20_000, 0]);
    assert_eq!(judged(&mut shelf, 2, 0, &ones(9_999)), 14);
    assert_eq!([ones(2), ones(1), ones(1)].map(|word| judged(&mut shelf, 2, 0, &word)), [36, 14, 36]);
    assert_eq!(shelf.charged(), [20_000, 10_000]);
    // publisher 2 starts a new round for both
    assert_eq!(shelf.round(2), 0);
    assert_eq!(shelf.charged(), [0, 0]);
    assert_eq!(judged(&mut shelf, 1, 0, &long_signature(128)), 0);
    assert_eq!(shelf.charged(), [128, 0]);
}

/// A slip of `letters` letters is admitted exactly if the amounts over 10,000 then sum to at most 10,000.
#[test]
fn the_sum_decides() {
    // charges of publishers 1 and 2, the publisher that judges, the letters of its slip, and whether it is admitted
    let cases = [
        // nobody is over 10,000: 9,999, 10,000 and 10,001 letters
        ([9_998, 9_999], 1, 1, true),
        ([9_999, 9_999], 1, 1, true),
        ([10_000, 9_999], 1, 1, true),
        ([10_000, 10_000], 2, 1, true),
        // 5,000 + 5,000, and 5,000 + 5,001
        ([15_000, 14_999], 2, 1, true),
        ([15_000, 14_999], 2, 2, false),
        ([15_000, 15_000], 1, 0, true),
        ([15_000, 15_000], 1, 1, false),
        // 1 + 9,999, and 1 + 10,000
        ([10_001, 19_998], 2, 1, true),
        ([10_001, 19_999], 2, 1, false),
        // the other publisher has 10,000 letters, so all further 10,000 are free
        ([19_999, 10_000], 1, 1, true),
        ([20_000, 10_000], 1, 1, false),
        // the other publisher has 10,001 letters, so 9,999 of the further 10,000 are free
        ([19_998, 10_001], 1, 1, true),
        ([19_999, 10_001], 1, 1, false),
        // the other publisher took all further 10,000, so the publisher has its own 10,000 alone
        ([9_999, 20_000], 1, 1, true),
        ([10_000, 20_000], 1, 1, false),
        ([20_000, 0], 2, 10_000, true),
        ([20_000, 1], 2, 10_000, false),
        ([20_000, 0], 1, 10_000, false),
        // charges that no history makes: 65,535 + 1 and 65,535 + 10,000 are not taken modulo 65,536
        ([65_535, 0], 1, 1, false),
        ([65_535, 0], 1, 10_000, false),
        ([65_535, 65_535], 2, 1, false),
        ([0, 65_535], 1, 1, false),
        ([20_001, 0], 1, 0, false),
        ([20_001, 0], 2, 0, false),
    ];
    for (charges, publisher, letters, admitted) in cases {
        let mut shelf = charged_with(charges);
        let answer = judged(&mut shelf, publisher, 0, &ones(letters));
        let mut after = charges.map(usize::from);
        if admitted {
            after[publisher - 1] += usize::from(letters);
        }
        assert_eq!(
            (answer, shelf.charged()),
            (if admitted { 14 } else { 36 }, after),
            "{charges:?} {publisher}"
        );
        // a new round clears these charges too, and the keys stay
        assert_eq!(shelf.round(publisher), 0);
        assert_eq!(shelf, charged_with([0, 0]));
    }
}

/// The letters are charged on 0 and on 14. 36 is asked after the word's questions and before the verdict.
#[test]
fn charged_on_0_and_14_alone() {
    let refused = [vec![], vec![0x27, 0x11], vec![0, 1], vec![0, 1, 0x70], vec![0, 1, 0x01]];
    for (charges, good, bad) in [([0, 0], 0, 14), ([20_000, 0], 36, 36)] {
        let shelf = charged_with(charges);
        let judge = |publisher, number, digest: &[u8], word: &[u8]| {
            let mut after = shelf.clone();
            (after.judge(publisher, number, digest, word), after)
        };
        for (word, answer) in refused.iter().zip(9..) {
            assert_eq!(judge(1, 0, &[0; 32], word), (answer, shelf.clone()));
        }
        let word = sevens(128);
        assert_eq!(judge(0, 0, &[0; 32], &word), (30, shelf.clone()));
        assert_eq!(judge(1, 4, &[0; 32], &word), (30, shelf.clone()));
        assert_eq!(judge(1, 1, &[0; 32], &word), (31, shelf.clone()));
        assert_eq!(judge(1, 0, &[0; 31], &word), (8, shelf.clone()));
        assert_eq!((judge(1, 0, &[0; 32], &word).0, judge(1, 0, &[1; 32], &word).0), (good, bad));
    }
    let mut shelf = charged_with([0, 0]);
    assert_eq!(judged(&mut shelf, 1, 0, &sevens(128)), 0);
    assert_eq!(shelf.charged(), [128, 0]);
    assert_eq!(judged(&mut shelf, 1, 0, &ones(7)), 14);
    assert_eq!(shelf.charged(), [135, 0]);
}

/// Letters count the same over both fields. Loading and clearing keys changes no charge.
#[test]
fn letters_of_either_field() {
    let mut shelf = charged_with([0, 0]);
    for (field, charged) in [(Field::Gf32, 128), (Field::Gf256, 384)] {
        let bytes = field.digest_bytes();
        assert_eq!(shelf.load(2, 3, &plain_key_over(field)), 0);
        assert_eq!(shelf.judge(2, 3, &vec![0; bytes], &sevens(4 * bytes as u16)), 0);
        assert_eq!(shelf.charged(), [0, charged]);
    }
    assert_eq!([shelf.clear(2, 3), shelf.clear(2, 0), shelf.clear(1, 0)], [0, 0, 0]);
    assert_eq!(shelf.charged(), [0, 384]);
}

/// A rewritten word has another number of letters, so the one may be admitted where the other is not.
#[test]
fn a_rewritten_slip_may_not_be_admitted() {
    let (short, long) = (sevens(128), long_signature(130));
    let mut shelf = charged_with([19_872, 0]);
    assert_eq!([long, short].map(|word| judged(&mut shelf, 1, 0, &word)), [36, 0]);
    assert_eq!(shelf.charged(), [20_000, 0]);
}
