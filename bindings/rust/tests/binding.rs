//! What the binding adds to the library: names of answers, letters, moves, and that a refusal leaves lent memory as it
//! was. Results are the papers' slips, or follow from the layout of the files.

use std::error::Error;

use walnut::Field::{Gf256, Gf32};
use walnut::{Letter, Move, Moves, NoLetter, Pair, Refusal, Shelf};
use walnut::{DIGEST_BYTES, KEY_BYTES, LARGE_DIGEST_BYTES, LARGE_KEY_BYTES};
use walnut::{LETTERS, MOVES, MOVES_BYTES, SHELF_BYTES, SPREAD_LENGTH, WORD_BYTES};

const T_VALUES: [u8; 8] = [1, 1, 2, 3, 4, 5, 6, 7];
const SEVEN: &str = "b1 b2^-1 b3 b4 b5^-1 b6 b7^-1";
const SEVEN_FILE: [u8; 6] = [0x00, 0x07, 0x09, 0x23, 0xC5, 0xE0];

/// The plain key over a field: both matrices the identity, and the list 0 to 7.
fn plain_key(field: walnut::Field) -> Vec<u8> {
    let start = Pair::start();
    let entries = walnut::file_entries(&start.matrix);
    let mut key = vec![0; field.key_bytes()];
    walnut::write_key(field, &T_VALUES, &start.labels, &entries, &entries, &mut key).unwrap();
    key
}

#[test]
fn sizes_go_together() {
    assert_eq!((Gf32.key_bytes(), Gf32.digest_bytes()), (KEY_BYTES, DIGEST_BYTES));
    assert_eq!((Gf256.key_bytes(), Gf256.digest_bytes()), (LARGE_KEY_BYTES, LARGE_DIGEST_BYTES));
    assert_eq!((WORD_BYTES, MOVES_BYTES), (2 + LETTERS / 2, 2 + 3 * MOVES));
}

/// 10,000 for each major version, 100 for each minor one, 1 for each patch.
#[test]
fn the_library_has_the_version_of_the_crate() {
    let parts = env!("CARGO_PKG_VERSION").split('.').map(|part| part.parse::<u32>().unwrap());
    assert_eq!(walnut::version(), parts.fold(0, |number, part| 100 * number + part));
}

#[test]
fn verdicts_are_results() {
    for field in [Gf32, Gf256] {
        let (key, digest) = (plain_key(field), vec![0; field.digest_bytes()]);
        // a half byte 0 is b7 twice, and there are two in a byte
        let mut signature = u16::try_from(4 * digest.len()).unwrap().to_be_bytes().to_vec();
        signature.extend(vec![0x66; 2 * digest.len()]);
        assert_eq!(walnut::verify(&key, &digest, &signature), Ok(()));
        assert_eq!(walnut::verify(&key, &digest, &[0, 0]), Err(Refusal::MATRICES_DIFFER));
        assert_eq!(walnut::verify(&key[1..], &digest, &signature), Err(Refusal::KEY_LENGTH));
        assert_eq!(walnut::verify(&key, &digest[1..], &signature), Err(Refusal::DIGEST_LENGTH));
        assert_eq!(walnut::verify(&key, &digest, &[]), Err(Refusal::WORD_SHORT));
        assert_eq!(walnut::verify(&[], &[], &[]), Err(Refusal::KEY_LENGTH));
    }
}

#[test]
fn halves_judge_copies_as_the_verdict_does() {
    for field in [Gf32, Gf256] {
        let (key, digest) = (plain_key(field), vec![0; field.digest_bytes()]);
        let half = walnut::first_half(&key, &digest).unwrap();
        assert_eq!((half.field, half.t_values, half.pair), (field, T_VALUES, Pair::start()));
        let mut signature = u16::try_from(4 * digest.len()).unwrap().to_be_bytes().to_vec();
        signature.extend(vec![0x66; 2 * digest.len()]);
        for copy in [&signature[..], &[0, 0], &[0], &[0, 1, 0x70], &SEVEN_FILE] {
            assert_eq!(walnut::second_half(&half, copy), walnut::verify(&key, &digest, copy));
        }
        let own = walnut::Half { target: half.pair.matrix, ..half };
        assert_eq!(walnut::second_half(&own, &[0, 0]), Ok(()));
        let blank = walnut::Half { target: [0; 64], ..half };
        assert_eq!(walnut::second_half(&blank, &[]), Err(Refusal::NO_INVERSE));
        let zero = walnut::Half { t_values: [0; 8], ..blank };
        assert_eq!(walnut::second_half(&zero, &[]), Err(Refusal::ZERO));
        assert_eq!(walnut::first_half(&key[1..], &digest), Err(Refusal::KEY_LENGTH));
        assert_eq!(walnut::first_half(&key, &digest[1..]), Err(Refusal::DIGEST_LENGTH));
    }
}

#[test]
fn refusals_are_errors_with_number_and_text() {
    let error: Box<dyn Error + Send + Sync> = Box::new(Refusal::MATRICES_DIFFER);
    assert!(error.to_string().starts_with("14: the matrices differ"));
    assert_eq!(Refusal::MATRICES_DIFFER.number(), 14);
    assert_eq!(Refusal::NO_INVERSE.number(), 26);
    let shown = format!("{:?}", Refusal::NO_INVERSE);
    assert_eq!(shown, r#"Refusal(26, "a matrix of the key, or of a half, has no inverse")"#);
    // a name in a pattern
    assert!(matches!(walnut::reciprocal(Gf32, 0), Err(Refusal::ZERO)));
    assert!(matches!(walnut::product(Gf32, 32, 1), Err(Refusal::NO_ELEMENT)));
}

#[test]
fn where_a_strand_is() {
    let positions = |pair: &Pair| [0, 1, 2, 3, 4, 5, 6, 7].map(|label| pair.position(label));
    let mut pair = Pair::start();
    assert_eq!(positions(&pair), [1, 2, 3, 4, 5, 6, 7, 8].map(Some));
    assert_eq!(pair.position(8), None);
    // b3^-1 b6 b4 b1^-1 b2
    for letter in [10, 5, 3, 8, 1] {
        pair.multiply(Gf32, &T_VALUES, letter).unwrap();
    }
    assert_eq!(pair.labels, [1, 3, 0, 4, 2, 6, 5, 7]);
    assert_eq!(positions(&pair), [3, 1, 5, 2, 4, 7, 6, 8].map(Some));
    assert_eq!(Pair::with(pair.matrix, pair.labels), pair);
    let mut stale = Pair { positions: Pair::start().positions, ..pair };
    let before = stale;
    assert_eq!(stale.multiply(Gf32, &T_VALUES, 0), Err(Refusal::LABELS));
    assert_eq!(stale, before);
}

#[test]
fn nothing_lent_changes_on_a_refusal() {
    let mut pair = Pair::start();
    assert_eq!(pair.multiply(Gf32, &T_VALUES, 7), Err(Refusal::NO_LETTER));
    assert_eq!(pair, Pair::start());
    let mut short = [9; WORD_BYTES - 1];
    assert_eq!(walnut::free_reduce(&SEVEN_FILE, &mut short), Err(Refusal::OUTPUT_SHORT));
    assert_eq!(short, [9; WORD_BYTES - 1]);
    let entries = walnut::file_entries(&Pair::start().matrix);
    let mut key = [9; KEY_BYTES];
    let refused = walnut::write_key(Gf256, &T_VALUES, &Pair::start().labels, &entries, &entries, &mut key);
    assert_eq!(refused, Err(Refusal::KEY_OUTPUT_SHORT));
    assert_eq!(key, [9; KEY_BYTES]);
}

/// b1 b2 b1 b2^-1 b1^-1 is b2 by a turn, which swapping and cancelling does not find.
#[test]
fn shorter_words() {
    let (turned, mut out) = ([0x00, 0x05, 0x01, 0x09, 0x80], [9; WORD_BYTES]);
    assert_eq!(walnut::shorten(&turned, 0, &mut out), Ok(&mut turned.clone()[..]));
    for effort in [5, u16::MAX] {
        assert_eq!(walnut::shorten(&turned, effort, &mut out), Ok(&mut [0x00, 0x01, 0x10][..]));
    }
    assert_eq!(walnut::shorten(&[0, 1, 1], 5, &mut out), Err(Refusal::WORD_FILLER));
    let mut short = [9; WORD_BYTES - 1];
    assert_eq!(walnut::shorten(&turned, 5, &mut short), Err(Refusal::OUTPUT_SHORT));
    assert_eq!(short, [9; WORD_BYTES - 1]);
}

#[test]
fn letters_as_codes_and_as_text() {
    let codes = walnut::codes(SEVEN).unwrap();
    assert_eq!(codes, [0, 9, 2, 3, 12, 5, 14]);
    let mut out = [0; WORD_BYTES];
    assert_eq!(walnut::write_word(&codes, &mut out), Ok(&mut SEVEN_FILE.clone()[..]));
    let letters = walnut::letters(&SEVEN_FILE).unwrap();
    assert_eq!(letters.len(), 7);
    assert_eq!(letters.clone().map(Letter::code).collect::<Vec<_>>(), codes);
    assert_eq!(letters.map(|letter| letter.to_string()).collect::<Vec<_>>().join(" "), SEVEN);
    assert_eq!(walnut::letters(&[0, 0]).unwrap().next(), None);
    assert_eq!(walnut::codes(" \n"), Ok(vec![]));
}

#[test]
fn a_letter_is_its_code_its_text_and_its_parts() {
    let letters: Vec<Letter> = (0..=255).filter_map(Letter::of_code).collect();
    assert_eq!(letters.len(), 14);
    for letter in letters {
        assert_eq!(letter.to_string().parse(), Ok(letter));
        assert_eq!(Letter::of_text(&letter.to_string()), Some(letter));
        assert_eq!(letter.generator() - 1 + if letter.is_inverse() { 8 } else { 0 }, letter.code());
        assert_eq!(letter.inverse().generator(), letter.generator());
        assert_ne!(letter.inverse().is_inverse(), letter.is_inverse());
    }
    assert_eq!((Letter::of_code(7), Letter::of_code(15), Letter::of_code(16)), (None, None, None));
    for text in ["b0", "b8", "b1^-2", "b1^1", "B1", "b", "", "1", "b1b2"] {
        assert_eq!(text.parse::<Letter>(), Err(NoLetter(text.to_string())));
    }
    assert_eq!(walnut::codes("b1 b9 b2"), Err(NoLetter("b9".to_string())));
}

#[test]
fn letters_of_a_refused_word() {
    let refusal = |file: &[u8]| walnut::letters(file).err();
    assert_eq!(refusal(&[0]), Some(Refusal::WORD_SHORT));
    assert_eq!(refusal(&[0x27, 0x11]), Some(Refusal::TOO_MANY_LETTERS));
    assert_eq!(refusal(&[0, 1]), Some(Refusal::WORD_LENGTH));
    assert_eq!(refusal(&[0, 1, 0x70]), Some(Refusal::NO_LETTER));
    assert_eq!(refusal(&[0, 1, 0x01]), Some(Refusal::WORD_FILLER));
}

#[test]
fn crossings_by_sign() {
    let mut out = [0; WORD_BYTES];
    // each letter swaps the strands 0 and 1; the others never cross
    for (text, number) in [("b1 b1", 2), ("b1^-1 b1^-1", -2), ("b1 b1^-1", 0), ("", 0)] {
        let word = walnut::write_word(&walnut::codes(text).unwrap(), &mut out).unwrap();
        assert_eq!(walnut::crossings(word, 0, 1), Ok(number));
        assert_eq!(walnut::crossings(word, 1, 0), Ok(number));
        assert_eq!(walnut::crossings(word, 0, 7), Ok(0));
        assert_eq!(walnut::crossings(word, 3, 3), Err(Refusal::TWO_LABELS));
        assert_eq!(walnut::crossings(word, 0, 8), Err(Refusal::TWO_LABELS));
    }
    assert_eq!(walnut::crossings(&[0], 0, 0), Err(Refusal::WORD_SHORT));
}

#[test]
fn words_that_spread() {
    // of the 36 words of two letters 12 bring the list back, and 8 exchange both its halves
    assert_eq!(walnut::words_ending(2, &[0, 1, 2, 3]), Ok(12));
    assert_eq!(walnut::words_ending(2, &[1, 0, 3, 2]), Ok(8));
    assert_eq!(walnut::words_ending(0, &[0, 1, 2, 3]), Ok(1));
    assert_eq!(walnut::words_ending(1, &[0, 1, 2, 3]), Ok(0));
    let refused = Err(Refusal::LENGTH_OR_LIST);
    for length in [SPREAD_LENGTH + 1, usize::MAX] {
        assert_eq!(walnut::words_ending(length, &[0, 1, 2, 3]), refused);
    }
    for labels in [&[0, 1, 2][..], &[], &[0, 1, 2, 2], &[0, 1, 2, 4], &[0, 1, 2, 3, 4]] {
        assert_eq!(walnut::words_ending(2, labels), refused);
    }
}

#[test]
fn handles_and_the_shorter_word() {
    // b1 b2 b3 b2^-1 b1^-1 is b1 b3^-1 b2 b3 b1^-1, and then b3^-1 b2^-1 b1 b2 b3
    let (word, mut out) = ([0x00, 0x05, 0x01, 0x29, 0x80], [9; WORD_BYTES]);
    let one_step = walnut::handle_reduce(&word, 1, &mut out);
    assert_eq!(one_step, Ok((&mut [0x00, 0x05, 0x0A, 0x12, 0x80][..], true)));
    let all = walnut::handle_reduce(&word, u16::MAX, &mut out);
    assert_eq!(all, Ok((&mut [0x00, 0x05, 0xA9, 0x01, 0x20][..], false)));
    assert_eq!(walnut::handle_reduce(&word, 0, &mut out), Ok((&mut word.clone()[..], true)));
    // b1, b2 3,334 times, b1^-1: a step would leave 10,002 letters
    let mut grows = vec![0x11; 2 + 3_336 / 2];
    (grows[0], grows[1], grows[2], grows[1_669]) = (0x0D, 0x08, 0x01, 0x18);
    let mut kept = [9; WORD_BYTES];
    assert_eq!(walnut::handle_reduce(&grows, 1, &mut kept), Err(Refusal::HANDLES_FULL));
    assert_eq!(walnut::handle_reduce(&grows, 1, &mut kept[1..]), Err(Refusal::OUTPUT_SHORT));
    assert_eq!(kept, [9; WORD_BYTES]);

    let (one, two, none) = ([0, 1, 0x00], [0, 1, 0x10], [0, 0]);
    assert_eq!(walnut::shorter(&one, &none), Ok(&none[..]));
    assert_eq!(walnut::shorter(&none, &one), Ok(&none[..]));
    // on a tie the first, as the very slice that was passed
    assert!(std::ptr::eq(walnut::shorter(&two, &one).unwrap(), &two[..]));
    assert_eq!(walnut::shorter(&[], &[0, 1]), Err(Refusal::WORD_SHORT));
    assert_eq!(walnut::shorter(&one, &[0, 1]), Err(Refusal::WORD_LENGTH));
}

#[test]
fn the_y_dialect() {
    let (mut out, mut back) = ([0; WORD_BYTES], [0; WORD_BYTES]);
    let (word, parts) = ([0x00, 0x02, 0x01], [4, 3]);
    // b1 b2 is y1 y2⁻¹ y2 y3⁻¹
    let y_word = walnut::to_y(&word, &parts, &mut out).unwrap();
    assert_eq!(y_word, [0x00, 0x04, 0x09, 0x1A]);
    let artin = walnut::from_y(y_word, &parts, &mut back).unwrap();
    assert_eq!(walnut::free_reduce(artin, &mut out), Ok(&mut [0x00, 0x02, 0x01][..]));
    for parts in [&[][..], &[4, 0, 3], &[4, 4], &[255, 8]] {
        assert_eq!(walnut::to_y(&word, parts, &mut out), Err(Refusal::PARTS));
        assert_eq!(walnut::from_y(&word, parts, &mut out), Err(Refusal::PARTS));
    }
    let pair = [0x00, 0x02, 0x6B];
    assert_eq!(walnut::replace_pair(&pair, 0, &mut out), Ok(&mut [0x00, 0x02, 0xB6][..]));
    for place in [1, 2, usize::MAX] {
        assert_eq!(walnut::replace_pair(&pair, place, &mut out), Err(Refusal::PAST_THE_END));
    }
}

#[test]
fn shelves_keep_publishers_apart() {
    let mut shelf = Shelf::default();
    assert_eq!(shelf.bytes, [0; SHELF_BYTES]);
    for (field, publisher) in [(Gf32, 1), (Gf256, 2)] {
        let (key, digest) = (plain_key(field), vec![0; field.digest_bytes()]);
        let mut signature = u16::try_from(4 * digest.len()).unwrap().to_be_bytes().to_vec();
        signature.extend(vec![0x66; 2 * digest.len()]);
        assert_eq!(shelf.judge(publisher, 3, &digest, &signature), Err(Refusal::NO_KEY_HELD));
        assert_eq!(shelf.load(publisher, 3, &key), Ok(()));
        let mut loaded = shelf;
        assert_eq!(shelf.judge(publisher, 3, &digest, &[0, 0]), Err(Refusal::MATRICES_DIFFER));
        assert_eq!(shelf, loaded);
        assert_eq!(shelf.judge(publisher, 3, &digest, &signature), Ok(()));
        // 128 letters are charged to publisher 1, then 256 to publisher 2
        loaded.bytes[1032..].copy_from_slice(if publisher == 1 { &[0, 128, 0, 0] } else { &[0, 128, 1, 0] });
        assert_eq!(shelf.charged(), if publisher == 1 { [128, 0] } else { [128, 256] });
        assert_eq!(shelf.load(publisher, 3, &key[1..]), Err(Refusal::KEY_LENGTH));
        for (nobody, number) in [(0, 3), (3, 3), (publisher, 4), (publisher, usize::MAX)] {
            assert_eq!(shelf.load(nobody, number, &key), Err(Refusal::NO_SUCH_NUMBER));
            assert_eq!(shelf.clear(nobody, number), Err(Refusal::NO_SUCH_NUMBER));
            assert_eq!(shelf.judge(nobody, number, &digest, &signature), Err(Refusal::NO_SUCH_NUMBER));
        }
        assert_eq!(shelf, loaded);
        // slot 3 or 7, with 129 bytes each
        let at = 387 + 516 * (publisher - 1);
        assert_eq!(
            (usize::from(shelf.bytes[at]), &shelf.bytes[at + 1..at + 1 + key.len()]),
            (key.len(), &key[..])
        );
        assert_eq!(Shelf::from(<[u8; SHELF_BYTES]>::from(shelf)), shelf);
    }
    for publisher in [1, 2, 1] {
        assert_eq!(shelf.clear(publisher, 3), Ok(()));
    }
    assert_eq!(shelf.charged(), [128, 256]);
    assert_eq!(shelf.round(1), Ok(()));
    assert_eq!(shelf, Shelf::empty());
}

/// b1, 10,000 times, is no signature of zero bytes. Its letters are charged all the same.
#[test]
fn a_round_has_limits() {
    let (key, mut shelf) = (plain_key(Gf32), Shelf::empty());
    let mut word = vec![0x27, 0x10];
    word.resize(WORD_BYTES, 0);
    for publisher in [1, 2] {
        assert_eq!(shelf.load(publisher, 0, &key), Ok(()));
    }
    let mut judge = |publisher, letters: &[u8], expected, charged| {
        assert_eq!(shelf.judge(publisher, 0, &[0; 32], letters), Err(expected));
        assert_eq!(shelf.charged(), charged);
    };
    judge(1, &word, Refusal::MATRICES_DIFFER, [10_000, 0]);
    judge(1, &word, Refusal::MATRICES_DIFFER, [20_000, 0]);
    judge(1, &[0, 1, 0], Refusal::ROUND_FULL, [20_000, 0]);
    judge(2, &word, Refusal::MATRICES_DIFFER, [20_000, 10_000]);
    judge(2, &[0, 1, 0], Refusal::ROUND_FULL, [20_000, 10_000]);
    let full = shelf;
    for nobody in [0, 3, 257, usize::MAX] {
        assert_eq!(shelf.round(nobody), Err(Refusal::NO_SUCH_NUMBER));
    }
    assert_eq!(shelf, full);
    assert_eq!(shelf.round(2), Ok(()));
    assert_eq!((shelf.charged(), &shelf.bytes[..1032]), ([0, 0], &full.bytes[..1032]));
}

#[test]
fn moves_by_a_builder() {
    let moves = Moves::new().turn(0).remove(3);
    assert_eq!(moves.file(), [0, 2, 0, 0, 0, 3, 3, 1]);
    let mut out = [0; WORD_BYTES];
    let word = [0x00, 0x05, 0x01, 0x03, 0xB0];
    assert_eq!(walnut::rewrite(&word, &moves.file(), &mut out), Ok(&mut [0, 3, 0x10, 0x10][..]));
    let others = Moves::new().swap(0x0102).insert(0xFFFF, "b7^-1".parse().unwrap());
    assert_eq!(others.file(), [0, 2, 1, 2, 0xFF, 0xFF, 2, 30]);
    assert_eq!(others.list()[1], Move { place: 0xFFFF, kind: 30 });
    assert_eq!(Moves::new().file(), [0, 0]);
    assert_eq!(Moves::new().remove(0).then(Move { place: 5, kind: 200 }).list().len(), 2);
}

#[test]
fn move_lists_read_back() {
    for file in [&[0, 0][..], &[0, 1, 0, 9, 7], &[0, 2, 0, 0, 0, 3, 3, 1], &[0, 1, 0xFF, 0xFF, 255]] {
        assert_eq!(Moves::read(file).unwrap().file(), file);
    }
    assert_eq!(Moves::read(&[0]), Err(Refusal::MOVES_SHORT));
    assert_eq!(Moves::read(&[0x10, 0x01]), Err(Refusal::TOO_MANY_MOVES));
    assert_eq!(Moves::read(&[0, 1, 0, 0]), Err(Refusal::MOVES_LENGTH));
}

#[test]
fn more_moves_than_a_list_may_have() {
    let many = |number| (0..number).map(|_| Move { place: 0, kind: 16 }).collect::<Moves>().file();
    let mut out = [0; WORD_BYTES];
    // each inserts two letters
    assert_eq!(many(MOVES).len(), MOVES_BYTES);
    assert_eq!(walnut::rewrite(&[0, 0], &many(MOVES), &mut out).map(|word| word.len()), Ok(2 + MOVES));
    for number in [MOVES + 1, 65535, 65536, 70000] {
        assert_eq!(walnut::rewrite(&[0, 0], &many(number), &mut out), Err(Refusal::TOO_MANY_MOVES));
    }
}
