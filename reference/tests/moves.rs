//! The rewriter and the verdict: the worked examples of document 01, and examples that follow from it by hand. Expected
//! values are typed, or follow by the reasoning beside them. The code under test computed none of them.

mod common;

use common::{blank_key, file, hex, key_with_t_values, output, plain_key, refuses, PACKED_IDENTITY};
use reference::{rewrite, verify, Written};

/// The word after a list of moves. Word and list are typed in hexadecimal.
fn rewritten(word: &str, list: &str) -> Vec<u8> {
    output(|out| rewrite(&hex(word), &hex(list), out))
}

/// The rewriter must refuse with this answer and leave its output of 5,002 bytes unchanged.
fn refused(expected: u8, word: &[u8], list: &[u8]) {
    refuses(expected, 5_002, |out| rewrite(word, list, out));
}

/// A move list from places and kinds. Tests use it for inputs only, never for expected values.
fn list(moves: &[(u16, u8)]) -> Vec<u8> {
    let mut bytes = (moves.len() as u16).to_be_bytes().to_vec();
    bytes.extend(moves.iter().flat_map(|(place, _)| place.to_be_bytes()));
    bytes.extend(moves.iter().map(|(_, kind)| kind));
    bytes
}

/// The word file of `letters` letters b1.
fn ones(letters: usize) -> Vec<u8> {
    file(&vec![0; letters])
}

// ---- The slips (document 01) ----

#[test]
fn rewriter_slips() {
    assert_eq!(rewritten("00 03 01 00", "00 01 00 00 03"), hex("00 03 10 10"));
    assert_eq!(rewritten("00 02 08", "00 01 00 00 01"), hex("00 00"));
    refused(23, &hex("00 02 01"), &hex("00 01 00 00 02"));
    refused(22, &hex("00 00"), &hex("00 01 00 01 10"));
    refused(24, &ones(10_000), &hex("00 01 00 00 10"));
    refused(10, &hex("27 11"), &hex("00 00"));
    refused(10, &ones(10_001), &hex("00 01 00 00 10"));
}

#[test]
fn verdict_slips() {
    let word = hex(&format!("00 80 {}", "66 ".repeat(64)));
    assert_eq!(verify(&plain_key(), &[0; 32], &word), 0);
    assert_eq!(verify(&plain_key(), &[0; 32], &hex("00 00")), 14);
    assert_eq!(verify(&[], &[], &[]), 1);
}

// ---- One move (document 01, "Moves") ----

#[test]
fn accepted_moves() {
    for (word, moves, expected) in [
        ("00 02 80", "00 01 00 00 01", "00 00"),          // b1⁻¹ b1
        ("00 04 06 E3", "00 01 00 01 01", "00 02 03"),    // from the middle
        ("00 03 06 E0", "00 01 00 01 01", "00 01 00"),    // from the end
        ("00 02 02", "00 01 00 00 02", "00 02 20"),       // b1 b3
        ("00 02 20", "00 01 00 00 02", "00 02 02"),       // b3 b1
        ("00 02 0A", "00 01 00 00 02", "00 02 A0"),       // signs do not matter
        ("00 02 E8", "00 01 00 00 02", "00 02 8E"),       // the generators farthest apart
        ("00 03 53 90", "00 01 00 01 02", "00 03 59 30"), // b4 and b2⁻¹
        ("00 03 10 10", "00 01 00 00 03", "00 03 01 00"), // b2 b1 b2
        ("00 03 56 50", "00 01 00 00 03", "00 03 65 60"), // b6 b7 b6
        ("00 03 9A 90", "00 01 00 00 03", "00 03 A9 A0"), // three inverses
        ("00 04 60 10", "00 01 00 01 03", "00 04 61 01"), // at the end
        ("00 00", "00 01 00 00 10", "00 02 08"),          // into the empty word
        ("00 00", "00 01 00 00 18", "00 02 80"),          // an inverse and then its letter
        ("00 01 30", "00 01 00 00 16", "00 03 6E 30"),    // before a letter
        ("00 01 30", "00 01 00 01 1E", "00 03 3E 60"),    // after the last
        ("00 02 00", "00 01 00 01 11", "00 04 01 90"),    // between two
    ] {
        assert_eq!(rewritten(word, moves), hex(expected), "{word} with {moves}");
    }
}

#[test]
fn letters_without_the_shape() {
    for (word, kind) in [
        ("00 02 00", 1),    // b1 b1
        ("00 02 09", 1),    // b1 b2⁻¹
        ("00 02 88", 1),    // b1⁻¹ b1⁻¹
        ("00 02 01", 2),    // generators that differ by 1
        ("00 02 10", 2),    // generators that differ by 1
        ("00 02 09", 2),    // generators that differ by 1, with different signs
        ("00 02 0E", 1),    // b1 b7⁻¹
        ("00 02 00", 2),    // the same generator
        ("00 02 08", 2),    // the same generator, with both signs
        ("00 03 00 00", 3), // the same generator
        ("00 03 02 00", 3), // generators that differ by 2
        ("00 03 01 20", 3), // the third letter has another generator
        ("00 03 01 80", 3), // the third letter has another sign
        ("00 03 09 00", 3), // the second letter has another sign
        ("00 03 81 00", 3), // the first letter has another sign
        ("00 03 89 00", 3), // two inverses and a generator
        ("00 03 01 10", 3), // j k k
        ("00 03 00 10", 3), // j j k
    ] {
        refused(23, &hex(word), &list(&[(0, kind)]));
    }
}

#[test]
fn letters_that_do_not_exist() {
    for (letters, place, kind) in [
        (0, 0, 1),
        (0, 0, 2),
        (0, 0, 3),
        (1, 0, 1),
        (1, 0, 2),
        (2, 0, 3),
        (2, 1, 1),
        (2, 1, 2),
        (3, 1, 3),
        (3, 2, 3),
        (2, 2, 1),
        (0, 1, 30),
        (3, 4, 16),
        (3, 65_535, 1),
        (3, 65_535, 2),
        (3, 65_535, 3),
        (3, 65_535, 16),
        (10_000, 9_999, 1),
        (10_000, 9_998, 3),
    ] {
        refused(22, &ones(letters), &list(&[(place, kind)]));
    }
}

/// Kinds are 1, 2, 3, 16 to 22 and 24 to 30. On the empty word the kinds that need letters get 22, and insertions are
/// accepted.
#[test]
fn every_kind() {
    for kind in 0..=255 {
        match kind {
            1..=3 => refused(22, &hex("00 00"), &list(&[(0, kind)])),
            16..=22 => {
                let code = kind - 16;
                let expected = [0, 2, 16 * code + (code + 8)];
                assert_eq!(output(|out| rewrite(&hex("00 00"), &list(&[(0, kind)]), out)), expected);
            }
            24..=30 => {
                let code = kind - 16;
                let expected = [0, 2, 16 * code + (code - 8)];
                assert_eq!(output(|out| rewrite(&hex("00 00"), &list(&[(0, kind)]), out)), expected);
            }
            0 | 4..=15 | 23 | 31.. => {
                refused(21, &hex("00 00"), &list(&[(0, kind)]));
                refused(21, &hex("00 00"), &list(&[(65_535, kind)]));
                refused(21, &ones(10_000), &list(&[(10_001, kind)]));
            }
        }
    }
}

#[test]
fn room_for_an_insertion() {
    for place in [0, 1, 9_999, 10_000] {
        refused(24, &ones(10_000), &list(&[(place, 16)]));
    }
    refused(22, &ones(10_000), &list(&[(10_001, 16)]));
    refused(24, &ones(9_999), &list(&[(0, 16)]));
    refused(22, &ones(9_999), &list(&[(10_000, 16)]));
    let mut out = vec![0xAA; 5_002];
    assert_eq!(rewrite(&ones(9_998), &list(&[(9_998, 30)]), &mut out), Written { answer: 0, bytes: 5_002 });
    assert_eq!(out[..2], hex("27 10"));
    assert!(out[2..5_001].iter().all(|byte| *byte == 0));
    assert_eq!(out[5_001], 0xE6);
}

// ---- Lists of moves (document 01, "Files" and "Moves") ----

#[test]
fn no_moves() {
    for word in ["00 00", "00 01 E0", "00 07 09 23 C5 E0", "00 02 08"] {
        assert_eq!(rewritten(word, "00 00"), hex(word));
    }
    assert_eq!(output(|out| rewrite(&ones(10_000), &hex("00 00"), out)), ones(10_000));
}

/// The word is b1 b1⁻¹ b1 b2 b1. After the removal b1 b2 b1 stands at place 0, so kind 3 is accepted there. Before the
/// removal b1 b1⁻¹ b1 stands there, and kind 3 is refused.
#[test]
fn each_move_works_on_what_the_last_one_left() {
    let word = "00 05 08 01 00";
    assert_eq!(rewritten(word, "00 02 00 00 00 00 01 03"), hex("00 03 10 10"));
    refused(23, &hex(word), &hex("00 02 00 00 00 00 03 01"));
    // Before the removal b1 b2 b1 stands at place 2. After it the word has no three letters from place 2 on.
    assert_eq!(rewritten(word, "00 02 00 02 00 00 03 01"), hex("00 03 10 10"));
    refused(22, &hex(word), &hex("00 02 00 00 00 02 01 03"));
}

/// The braid b1 b3 b2⁻¹ b3 b1⁻¹ of source 004, section 5.2. b1 and b3 swap, and b3 and b1⁻¹ swap. b2⁻¹ stays between b1
/// and b1⁻¹, so the two cannot be removed.
#[test]
fn braid_of_source_004() {
    let word = "00 05 02 92 80";
    assert_eq!(rewritten(word, "00 02 00 00 00 03 02 02"), hex("00 05 20 98 20"));
    refused(23, &hex(word), &hex("00 03 00 00 00 03 00 01 02 02 01"));
}

#[test]
fn places_past_the_word_handed_in() {
    // The second insertion stands after the letters of the first.
    assert_eq!(rewritten("00 00", "00 02 00 00 00 02 10 11"), hex("00 04 08 19"));
    assert_eq!(rewritten("00 01 00", "00 02 00 01 00 01 11 01"), hex("00 01 00"));
    refused(22, &hex("00 00"), &hex("00 02 00 00 00 03 10 11"));
    refused(22, &hex("00 00"), &hex("00 02 00 02 00 00 11 10"));
}

/// The word is b1 b1⁻¹ and then b1, 9,998 times. A removal makes room for an insertion at the end.
#[test]
fn removal_before_an_insertion_on_the_longest_word() {
    let mut codes = vec![0; 10_000];
    codes[1] = 8;
    let word = file(&codes);
    let mut expected = vec![0; 5_002];
    expected[..2].copy_from_slice(&hex("27 10"));
    expected[5_001] = 0x19;
    assert_eq!(output(|out| rewrite(&word, &list(&[(0, 1), (9_998, 17)]), out)), expected);
    refused(24, &word, &list(&[(9_998, 17), (0, 1)]));
    refused(24, &word, &list(&[(0, 1), (9_998, 17), (0, 16)]));
    refused(22, &word, &list(&[(0, 1), (9_999, 17)]));
}

/// The list 00 02 00 00 01 00 10 10 inserts b1 b1⁻¹ at places 0 and 256. If each kind stood after its place, the list
/// would remove the letters at place 0 and insert at place 16.
#[test]
fn all_places_come_before_all_kinds() {
    let tail = "00 ".repeat(149);
    let word = format!("01 2C 08 {tail}");
    let expected = format!("01 30 08 08 {} 08 {}", "00 ".repeat(126), "00 ".repeat(23));
    assert_eq!(rewritten(&word, "00 02 00 00 01 00 10 10"), hex(&expected));
    assert_eq!(rewritten("00 02 02", "00 02 00 00 00 00 02 02"), hex("00 02 02"));
}

#[test]
fn one_refused_move_refuses_the_list() {
    refused(23, &hex("00 03 01 00"), &list(&[(0, 3), (0, 1)]));
    refused(23, &hex("00 02 08"), &list(&[(0, 16), (1, 3)]));
    refused(22, &hex("00 02 08"), &list(&[(0, 1), (0, 1)]));
    refused(21, &hex("00 02 08"), &list(&[(0, 1), (0, 16), (0, 23)]));
    refused(24, &ones(9_998), &list(&[(0, 16), (0, 16)]));
}

/// The first refused move decides the answer, whatever the later moves are.
#[test]
fn moves_are_tried_in_order() {
    let bad = [(21, (0, 0)), (22, (10_001, 16)), (23, (0, 1)), (24, (0, 16))];
    for (first, early) in bad {
        for (_, late) in bad {
            refused(first, &ones(10_000), &list(&[early, late]));
        }
    }
}

/// A list may have 4,096 moves, which is 10 00 in hexadecimal. Each move swaps b1 and b3.
#[test]
fn the_most_moves() {
    for (number, expected) in [(4_096, "00 02 02"), (4_095, "00 02 20")] {
        let moves = list(&vec![(0, 2); number]);
        assert_eq!(output(|out| rewrite(&hex("00 02 02"), &moves, out)), hex(expected));
    }
    refused(19, &hex("00 02 02"), &list(&vec![(0, 2); 4_097]));
    refused(23, &hex("00 03 02 00"), &list(&[vec![(0, 2); 4_095], vec![(0, 1)]].concat()));
}

/// 4,096 insertions at place 0 give b1 b1⁻¹, 4,096 times. 4,096 removals give the empty word again.
#[test]
fn the_most_insertions_and_removals() {
    let grown = hex(&format!("20 00 {}", "08 ".repeat(4_096)));
    assert_eq!(output(|out| rewrite(&hex("00 00"), &list(&vec![(0, 16); 4_096]), out)), grown);
    assert_eq!(output(|out| rewrite(&grown, &list(&vec![(0, 1); 4_096]), out)), hex("00 00"));
}

// ---- The rewriter's questions in their order ----

#[test]
fn list_questions_in_order() {
    let word = hex("00 02 08");
    refused(18, &word, &[]);
    refused(18, &word, &[0xFF]);
    for moves in ["10 01", "FF FF", "10 01 00 00 00"] {
        refused(19, &word, &hex(moves));
    }
    refused(19, &word, &list(&vec![(0, 0); 4_097]));
    for moves in ["10 00", "00 01", "00 01 00 00", "00 01 00 00 01 00", "00 00 00", "00 02 00 00 00"] {
        refused(20, &word, &hex(moves));
    }
}

#[test]
fn rewriter_questions_in_order() {
    let word = hex("00 02 08");
    let good = hex("00 01 00 00 01");
    // 15 comes first.
    for size in [0, 5_001] {
        refuses(15, size, |out| rewrite(&word, &good, out));
        refuses(15, size, |out| rewrite(&[], &[], out));
        refuses(15, size, |out| rewrite(&word, &[], out));
    }
    // The word's questions come before those of the list and its moves.
    let words = [
        (hex(""), 9),
        (hex("00"), 9),
        (hex("27 11"), 10),
        (hex("FF FF"), 10),
        (hex("00 02"), 11),
        (hex("00 02 08 00"), 11),
        (hex("00 02 77 00"), 11),
        (hex("00 02 07"), 12),
        (hex("00 01 7F"), 12),
        (hex("00 01 01"), 13),
    ];
    for (word, expected) in words {
        for moves in ["", "10 01", "00 01", "00 01 00 00 00", "00 01 00 00 01", "00 00"] {
            refused(expected, &word, &hex(moves));
        }
    }
    // The list's questions come next, then the moves' questions.
    refused(18, &word, &[0]);
    refused(19, &word, &hex("10 01 00 00 00"));
    refused(20, &word, &hex("00 01 00 00 00 00"));
    refused(21, &word, &hex("00 01 FF FF 00"));
    refused(22, &word, &hex("00 01 00 01 01"));
    refused(23, &word, &hex("00 01 00 00 02"));
}

// ---- The verdict ----

/// 128 letters b7: the braid of a digest of zeros.
const SEVENS: &str = "66 66 66 66 66 66 66 66 66 66 66 66 66 66 66 66 66 66 66 66 66 66 66 66 66 66 66 66 66 66 66 66 \
                      66 66 66 66 66 66 66 66 66 66 66 66 66 66 66 66 66 66 66 66 66 66 66 66 66 66 66 66 66 66 66 66";

/// The verdict on a digest of zeros.
fn verdict(key: &[u8], word: &str) -> u8 {
    verify(key, &[0; 32], &hex(word))
}

/// The plain key with the matrix of b6 as Pub(S'): the identity matrix with row 6 replaced by 0 0 0 0 5 5 1 0. The 5, 5
/// and 1 are the entries 44, 45, 46 of the 57, counted from 0. So the bits 222, 224, 227, 229 and 234 of the 288 are
/// ones.
fn key_with_b6() -> Vec<u8> {
    let second = "08 00 00 00 00 00 40 00 00 00 00 02 00 00 00 00 00 10 \
                  00 00 00 00 00 80 00 00 00 02 94 20 00 00 00 00 20 08";
    hex(&format!("08 00 20 08 44 32 14 C7 {PACKED_IDENTITY} 05 39 77 {second}"))
}

/// The digest's matrix is the left factor of the target, and the matrix of Pub(S') is the right factor. 128 letters b7
/// and then b6 reach this product, since 128 letters b7 bring the list back. With b6 first, row 7 has no entry in
/// column 5.
#[test]
fn second_matrix_stands_on_the_right() {
    assert_eq!(verdict(&key_with_b6(), &format!("00 81 {SEVENS} 50")), 0);
    assert_eq!(verdict(&key_with_b6(), &format!("00 81 56 {}", SEVENS.replacen("66", "", 1) + " 60")), 14);
    assert_eq!(verdict(&key_with_b6(), &format!("00 80 {SEVENS}")), 14);
    assert_eq!(verdict(&plain_key(), &format!("00 81 {SEVENS} 50")), 14);
}

/// Under T-values 1 1 2 2 4 5 6 7, 31 letters b3 bring the matrix back but not the list. The verdict is still 0.
#[test]
fn lists_are_not_compared() {
    let key = key_with_t_values("08 44 22 14 C7");
    assert_eq!(verdict(&key, &format!("00 9F {SEVENS} {} 20", "22 ".repeat(15))), 0);
    assert_eq!(verdict(&key, &format!("00 9E {SEVENS} {}", "22 ".repeat(15))), 14);
}

/// If labels 6 and 7 are exchanged in Pub(S)'s list, b7 starts from T-value 7, not 6. For the T-values t, u of the two
/// labels and m = t × u, 128 letters b7 have (1 + t)(1 + m) in row 7, column 8. This number is different for t = 7.
#[test]
fn list_of_the_first_matrix_counts() {
    let swapped = hex(&format!("08 00 20 08 44 32 14 C7 {PACKED_IDENTITY} 05 39 7E {PACKED_IDENTITY}"));
    assert_eq!(verdict(&swapped, &format!("00 80 {SEVENS}")), 14);
    let equal = hex(&format!("08 00 20 08 44 32 14 C6 {PACKED_IDENTITY} 05 39 7E {PACKED_IDENTITY}"));
    assert_eq!(verdict(&equal, &format!("00 80 {SEVENS}")), 0, "the same T-value twice");
}

/// Cancelling letters before or after a right signature do not change the verdict. Two more letters b7, or another
/// digest, change it.
#[test]
fn cancelling_letters_do_not_count() {
    assert_eq!(verdict(&plain_key(), &format!("00 82 08 {SEVENS}")), 0);
    assert_eq!(verdict(&plain_key(), &format!("00 82 {SEVENS} E6")), 0);
    assert_eq!(verdict(&plain_key(), &format!("00 82 {SEVENS} 66")), 14);
    assert_eq!(verify(&plain_key(), &[0x11; 32], &hex(&format!("00 80 {SEVENS}"))), 14);
}

/// If both matrices of a key were zero, every word would reach the target. If one were zero, no word would. Such keys
/// are refused.
#[test]
fn keys_of_zeros_are_refused() {
    let (plain, blank) = (plain_key(), blank_key());
    let first_blank = [&blank[..44], &plain[44..]].concat();
    let second_blank = [&plain[..44], &blank[44..]].concat();
    for key in [blank, first_blank, second_blank] {
        for word in ["00 00", "00 01 00", "00 07 09 23 C5 E0", &format!("00 80 {SEVENS}")] {
            assert_eq!(verdict(&key, word), 26);
        }
    }
}

#[test]
fn verdict_questions_in_order() {
    let good = plain_key();
    let mut keys = vec![(vec![], 1), (good[..82].to_vec(), 1), ([good.clone(), vec![0]].concat(), 1)];
    for (place, byte, expected) in
        [(0, 9, 2), (2, 33, 3), (7, 0xC0, 4), (3, 0x10, 5), (46, 0x76, 6), (43, 0x09, 7), (82, 0x0C, 7)]
    {
        let (mut key, mut blank) = (good.clone(), blank_key());
        key[place] = byte;
        blank[place] = byte;
        keys.extend([(key, expected), (blank, expected)]);
    }
    keys.push((blank_key(), 26));
    let words = [
        ("", 9),
        ("00", 9),
        ("27 11", 10),
        ("00 01", 11),
        ("00 02 07", 12),
        ("00 01 7F", 12),
        ("00 01 01", 13),
    ];
    for (key, expected) in keys {
        assert_eq!(verify(&key, &[0; 32], &hex("00 00")), expected);
        assert_eq!(verify(&key, &[0; 31], &hex("")), expected);
        assert_eq!(verify(&key, &[0; 32], &hex("00 01 7F")), expected);
    }
    for length in [0, 31, 33, 64] {
        assert_eq!(verify(&good, &vec![0; length], &hex("00 00")), 8);
        for (word, _) in words {
            assert_eq!(verify(&good, &vec![0; length], &hex(word)), 8);
        }
    }
    for (word, expected) in words {
        assert_eq!(verify(&good, &[0; 32], &hex(word)), expected);
    }
}
