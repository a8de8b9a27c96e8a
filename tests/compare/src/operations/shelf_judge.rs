//! Judging a slip with a key of a shelf, and charging its letters.

use reference::shelf::SHELF_BYTES;
use reference::testkit::Slip;

use crate::make::shelves::{bad_place, charges, lent, place, put, put_charges};
use crate::operation::prelude::*;
use crate::operations::verify::flip_second_matrix;

pub struct ShelfJudge;

impl Operation for ShelfJudge {
    fn facts(&self) -> Facts {
        let questions = &[30, 31, 1, 2, 3, 4, 5, 6, 7, 26, 8, 9, 10, 11, 12, 13, 36, 14];
        let parts = &[parts::SHELF, parts::PUBLISHER, parts::NUMBER, parts::DIGEST, parts::WORD];
        Facts { over: Over::Held, share: 3, ..Facts::of("shelf_judge", questions, parts) }
    }

    /// Puts the key of an accepted slip, with its faults, into a slot. A key with faults can only be put there
    /// directly, because a load would refuse it. For 31 the slot's length is 0. For 36 the charges leave too few
    /// letters.
    fn make(&self, maker: &mut Maker, field: Field, faults: &[u8], size: Size) -> Option<Parts> {
        let (codes, mut shelf) = (maker.codes(size), maker.shelf());
        let mut slip = maker.slip(field, &codes);
        let random = &mut maker.random;
        if faults.contains(&14) {
            flip_second_matrix(random, field, &mut slip.key);
        }
        let at = place(random);
        let mut key = files::key(random, field, &slip.key, faults);
        while !(1..=128).contains(&key.len()) {
            key = files::key(random, field, &slip.key, faults);
        }
        put(&mut shelf, &at, &key, !faults.contains(&31));
        let (own, other) = charges(random, codes.len(), !faults.contains(&36));
        put_charges(&mut shelf, if at[0][7] == 1 { [own, other] } else { [other, own] });
        let at = if faults.contains(&30) { bad_place(random) } else { at };
        let digest = files::digest(random, field, &slip.digest, faults);
        Some([vec![shelf], at, vec![digest, files::word(random, &codes, faults)]].concat())
    }

    fn call(&self, by: By, input: &Input) -> Outcome {
        let ([_, _, _, digest, word], publisher, number) = (input.slices(), input.size(1), input.size(2));
        match by {
            By::Library => lent(input, |shelf| unsafe {
                // SAFETY: see `Operation::call`.
                walnut_shelf_judge(
                    shelf,
                    publisher,
                    number,
                    digest.as_ptr(),
                    digest.len(),
                    word.as_ptr(),
                    word.len(),
                )
            }),
            By::Reference => {
                let mut shelf = input.shelf();
                Outcome::of(shelf.judge(publisher, number, digest, word)).bytes(shelf.bytes())
            }
        }
    }

    /// The shelf stays unchanged on a refusal. Exception: 14 charges the letters, which a fixed case types.
    fn refused(&self, input: &Input) -> Vec<u8> {
        input.parts[0].clone()
    }

    fn fixed(&self) -> Vec<Fixed> {
        let mut cases: Vec<Fixed> = by_hand().into_iter().chain(limits()).collect();
        for (name, key, answer) in keys::refused() {
            if (1..=128).contains(&key.len()) {
                let shelf = shelf_with(1, 2, &key);
                cases.push(judge(&name, &shelf, 1, 2, &[0; 32], &[0, 0]).refused(answer));
                cases.push(judge(&name, &shelf, 1, 2, &[], &[]).refused(answer));
            }
        }
        cases
    }

    /// Puts the key of a slip into each slot in turn, and judges the slip at each place. Only the place of the key
    /// gives 0. Every other slot gives 31, and a place that no shelf has gives 30. The slips are over both fields.
    fn small(&self, run: &mut Run) -> Checked {
        for field in Field::BOTH {
            let codes = run.maker.random.tangled_word(5);
            let Slip { key, digest, word } = run.maker.slip(field, &codes);
            for (holder, held) in (1..=2).flat_map(|holder| (0..=3).map(move |held| (holder, held))) {
                let shelf = shelf_with(holder, held, &key);
                for (publisher, number) in (0..=3_usize).flat_map(|p| (0..=5_usize).map(move |n| (p, n))) {
                    let expected = match (publisher, number) {
                        place if place == (holder, held) => 0,
                        (1..=2, 0..=3) => 31,
                        _ => 30,
                    };
                    let (publisher, number) =
                        (publisher.to_be_bytes().to_vec(), number.to_be_bytes().to_vec());
                    let parts = vec![shelf.clone(), publisher, number, digest.clone(), word.clone()];
                    run.parts(&ShelfJudge, parts, Some(expected))?;
                }
            }
        }
        Ok(())
    }
}

/// A shelf with one file.
fn shelf_with(publisher: usize, number: usize, file: &[u8]) -> Vec<u8> {
    let mut shelf = vec![0; SHELF_BYTES];
    let at = [publisher, number].map(|number| number.to_be_bytes().to_vec()).to_vec();
    put(&mut shelf, &at, file, true);
    shelf
}

/// The shelf with these charges.
fn charged(shelf: &[u8], charges: [usize; 2]) -> Vec<u8> {
    let mut shelf = shelf.to_vec();
    put_charges(&mut shelf, charges);
    shelf
}

/// The word file of this number of letters b1. Under a plain key it is no signature of zero bytes: its matrix has the
/// determinant 1, and the matrix of the digest's letters b7 has another determinant.
fn ones(letters: usize) -> Vec<u8> {
    [(letters as u16).to_be_bytes().to_vec(), vec![0; letters.div_ceil(2)]].concat()
}

fn judge(name: &str, shelf: &[u8], publisher: usize, number: usize, digest: &[u8], word: &[u8]) -> Fixed {
    let name = format!("{name}, publisher {publisher}, number {number}");
    let (publisher, number) = (publisher.to_be_bytes(), number.to_be_bytes());
    Fixed::of(&ShelfJudge, &name, &[shelf, &publisher, &number, digest, word]).bytes(shelf.to_vec())
}

/// Slips with known answers. A slot's first byte is the length of its file. A length over 128 counts as 128. On 0 the
/// letters are charged: 128 to publisher 1, or 256 to publisher 2.
fn by_hand() -> Vec<Fixed> {
    let [small, large] = Field::BOTH.map(keys::plain);
    let (first, second) = (shelf_with(1, 0, &small), shelf_with(2, 3, &large));
    let mut long = second.clone();
    long[903] = 255;
    let (first_after, second_after) = (charged(&first, [128, 0]), charged(&second, [0, 256]));
    let long_after = charged(&long, [0, 256]);
    vec![
        judge("b7, 128 times, for 32 zero bytes", &first, 1, 0, &[0; 32], &sevens(128)).bytes(first_after),
        judge("the empty word", &first, 1, 0, &[0; 32], &[0, 0]).refused(14),
        judge("64 zero bytes", &first, 1, 0, &[0; 64], &sevens(256)).refused(8),
        judge("no word", &first, 1, 0, &[0; 32], &[]).refused(9),
        judge("10,001 letters", &first, 1, 0, &[0; 32], &[0x27, 0x11]).refused(10),
        judge("a letter without a code", &first, 1, 0, &[0; 32], &[0, 1]).refused(11),
        judge("code 7", &first, 1, 0, &[0; 32], &[0, 1, 0x70]).refused(12),
        judge("a filler", &first, 1, 0, &[0; 32], &[0, 1, 0x01]).refused(13),
        judge("another number", &first, 1, 1, &[0; 32], &sevens(128)).refused(31),
        judge("the other's number", &first, 2, 0, &[0; 32], &sevens(128)).refused(31),
        judge("no digest and no word", &first, 2, 0, &[], &[]).refused(31),
        judge("nobody", &first, 0, 0, &[0; 32], &sevens(128)).refused(30),
        judge("nobody, who holds no key", &first, 3, 1, &[], &[]).refused(30),
        judge("a number over 3", &second, 1, 4, &[0; 64], &sevens(256)).refused(30),
        judge("b7, 256 times, for 64 zero bytes", &second, 2, 3, &[0; 64], &sevens(256)).bytes(second_after),
        judge("a length of 255", &long, 2, 3, &[0; 64], &sevens(256)).bytes(long_after),
        judge("the empty word for 64 zero bytes", &second, 2, 3, &[0; 64], &[0, 0]).refused(14),
    ]
}

/// Slips at the limits of a round: the charges of both publishers, the letters of a slip of publisher 1, and whether it
/// is admitted. Each publisher is sure of 10,000 letters. The amounts over 10,000 may sum to 10,000.
const LIMITS: [([usize; 2], usize, bool); 18] = [
    ([0, 0], 10_000, true),
    ([9_999, 20_000], 1, true),
    ([9_999, 20_000], 2, false),
    ([0, 20_000], 10_000, true),
    ([1, 20_000], 10_000, false),
    ([10_000, 0], 10_000, true),
    ([10_001, 0], 10_000, false),
    ([10_000, 10_000], 10_000, true),
    ([10_000, 10_001], 9_999, true),
    ([10_000, 10_001], 10_000, false),
    ([14_999, 15_000], 1, true),
    ([14_999, 15_000], 2, false),
    ([20_000, 10_000], 0, true),
    ([20_000, 10_000], 1, false),
    // charges that no history makes: 65,535 + 1 and 65,535 + 10,000 are not taken modulo 65,536
    ([65_535, 0], 1, false),
    ([65_535, 0], 10_000, false),
    ([0, 20_001], 0, false),
    ([0, 65_535], 1, false),
];

/// The letters are charged on 14. Question 36 comes before the verdict, so a signature gets 36 too. It comes after the
/// questions of the place, the digest and the word.
fn limits() -> Vec<Fixed> {
    let mut cases = Vec::new();
    for (field, (charges, letters, admitted)) in Field::BOTH.into_iter().flat_map(|f| LIMITS.map(|l| (f, l)))
    {
        let digest = vec![0; field.digest_bytes()];
        for (publisher, [own, other]) in [(1, [0, 1]), (2, [1, 0])] {
            let plain = shelf_with(publisher, 2, &keys::plain(field));
            let after = [charges[0] + letters, charges[1]];
            let shelf = charged(&plain, [charges[own], charges[other]]);
            let name = format!("b1, {letters} times, with {charges:?} charged");
            let case = judge(&name, &shelf, publisher, 2, &digest, &ones(letters));
            cases.push(if admitted {
                case.refused(14).bytes(charged(&plain, [after[own], after[other]]))
            } else {
                case.refused(36)
            });
        }
    }
    let full = charged(&shelf_with(1, 0, &keys::plain(Field::Gf32)), [20_000, 0]);
    let others = charged(&shelf_with(1, 0, &keys::plain(Field::Gf32)), [9_872, 20_000]);
    cases.extend([
        judge("a signature in a full round", &full, 1, 0, &[0; 32], &sevens(128)).refused(36),
        judge("a filler in a full round", &full, 1, 0, &[0; 32], &[0, 1, 0x01]).refused(13),
        judge("31 bytes in a full round", &full, 1, 0, &[0; 31], &sevens(128)).refused(8),
        judge("no key in a full round", &full, 1, 1, &[0; 32], &sevens(128)).refused(31),
        judge("nobody in a full round", &full, 3, 0, &[0; 32], &sevens(128)).refused(30),
        judge("a signature that just fits", &others, 1, 0, &[0; 32], &sevens(128))
            .bytes(charged(&others, [10_000, 20_000])),
    ]);
    cases
}
