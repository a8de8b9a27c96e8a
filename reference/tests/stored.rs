//! Stored forms (document 02, section 6). Expected values are worked out by hand from the text of the request, with the
//! reasoning beside them. The code under test computed none of them.

mod common;

use common::{file, hex, output, refuses, Random};
use reference::{restore, store, Written};

/// The stored form of an accepted word.
fn stored(word: &[u8]) -> Vec<u8> {
    let mut out = vec![0xAA; 5_006];
    let Written { answer, bytes } = store(word, &mut out);
    assert_eq!(answer, 0);
    out.truncate(bytes);
    out
}

/// Words, and their stored forms.
const PAIRS: [(&str, &str); 6] = [
    ("00 00", "00 00 00 00 00 00"),
    // b1: sign 0 and seven zeros, generator 000 and five zeros
    ("00 01 00", "00 01 00 01 00 01 00 00"),
    // b7⁻¹: sign 1, generator 110
    ("00 01 E0", "00 01 00 01 00 01 80 C0"),
    // b1 b2⁻¹ b3 b4 b5⁻¹ b6 b7⁻¹: signs 0100101 0; generators 000 001 010 011 100 101 110 000
    ("00 07 09 23 C5 E0", "00 07 00 01 00 03 4A 05 39 70"),
    // b7⁻¹ eight times: no filler; 110 eight times is 11011011 01101101 10110110
    ("00 08 EE EE EE EE", "00 08 00 01 00 03 FF DB 6D B6"),
    // b7⁻¹ nine times
    ("00 09 EE EE EE EE E0", "00 09 00 02 00 04 FF 80 DB 6D B6 C0"),
];

#[test]
fn there_and_back() {
    for (word, form) in PAIRS.map(|(word, form)| (hex(word), hex(form))) {
        assert_eq!(stored(&word), form);
        assert_eq!(output(|out| restore(&form, out)), word);
    }
}

/// 10,000 letters b1 need 1,250 bytes of signs, 04 E2, and 3,750 of generators, 0E A6.
#[test]
fn the_longest_word() {
    let (word, mut form) = (file(&[0; 10_000]), hex("27 10 04 E2 0E A6"));
    form.resize(5_006, 0);
    assert_eq!(stored(&word), form);
    assert_eq!(output(|out| restore(&form, out)), word);
}

#[test]
fn random_words_there_and_back() {
    let mut random = Random::seeded(6);
    for letters in (0..100).chain([9_999, 10_000]) {
        let word = file(&random.word(letters));
        assert_eq!(output(|out| restore(&stored(&word), out)), word);
    }
}

#[test]
fn storing_refusals_in_order() {
    refuses(15, 5_005, |out| store(&[], out));
    refuses(15, 5_002, |out| store(&hex("00 00"), out));
    refuses(9, 5_006, |out| store(&[], out));
    refuses(12, 5_006, |out| store(&hex("00 01 7F"), out));
    refuses(13, 5_006, |out| store(&hex("00 01 07"), out));
}

#[test]
fn restoring_refusals_in_order() {
    refuses(15, 5_001, |out| restore(&[], out));
    for (answer, form) in [
        (28, ""),
        (28, "27 11 00 00 00"),             // five bytes
        (10, "27 11 00 00 00 00"),          // 10,001 letters, and sizes that disagree
        (28, "00 01 00 02 00 01 00 00 00"), // two bytes of signs
        (28, "00 01 00 01 00 02 00 00 00"), // two bytes of generators
        (28, "00 01 00 01 00 01 00"),       // a byte is missing
        (28, "00 01 00 01 00 01 00 00 00"), // a byte was added
        (28, "00 01 00 01 00 01 FF FF FF"), // a byte was added, and the rows are wrong
        (29, "00 01 00 01 00 01 00 E0"),    // generator 7
        (29, "00 01 00 01 00 01 01 00"),    // filler after the signs
        (29, "00 01 00 01 00 01 00 10"),    // filler after the generators
    ] {
        refuses(answer, 5_002, |out| restore(&hex(form), out));
    }
}
