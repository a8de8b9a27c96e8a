//! The second half of the verdict.

use reference::matrix::{at, identity as one, is_invertible};
use reference::pair::carried;
use reference::testkit::Random;
use reference::word::word_file;
use reference::{first_half, letters, second_half, Half, Pair};

use crate::library::{half_parts, handed, pair_with};
use crate::operation::prelude::*;
use crate::plan::keys::matrices;
use crate::shrink::cut;

pub struct SecondHalf;

const TARGET: Part = Part { name: "target", form: Form::Fixed(64) };

impl Operation for SecondHalf {
    fn facts(&self) -> Facts {
        let parts = &[parts::T_VALUES, parts::MATRIX, parts::LISTS, TARGET, parts::WORD];
        let facts = Facts::of("second_half", &[17, 4, 6, 26, 9, 10, 11, 12, 13, 14], parts);
        Facts { over: Over::Named, share: 6, ..facts }
    }

    /// A half from a key or a random half. The word reaches its target. Then the faults are put in.
    fn make(&self, maker: &mut Maker, field: Field, faults: &[u8], size: Size) -> Option<Parts> {
        let codes = maker.codes(size);
        let mut half = if maker.random.one_in(3) {
            let slip = maker.slip(field, &codes);
            first_half(&slip.key, &slip.digest).half
        } else {
            free(&mut maker.random, field, &codes)
        };
        spoil(&mut maker.random, &mut half, faults);
        Some(SecondHalf::parts(&half, files::word(&mut maker.random, &codes, faults)))
    }

    fn call(&self, by: By, input: &Input) -> Outcome {
        let (half, word) = (half_of(input), &input.parts[4]);
        Outcome::of(match by {
            // SAFETY: see `Operation::call`.
            By::Library => unsafe { walnut_second_half(handed(&half), word.as_ptr(), word.len()) },
            By::Reference => second_half(&half, word),
        })
    }

    fn fixed(&self) -> Vec<Fixed> {
        [turned(), of_zeros(), of_no_key(), refusals()].into_iter().flatten().collect()
    }

    /// Each number as an entry of either matrix and as a T-value, and matrices with and without an inverse. These have
    /// no word: the half's questions come first, so answer 9 says that the half passes them. Then an accepted half with
    /// its word over each field.
    fn small(&self, run: &mut Run) -> Checked {
        for field in Field::BOTH {
            for number in 0..=255 {
                self.number(run, field, number)?;
            }
            for ([matrix, target], expected) in matrices(&mut run.maker.random, field) {
                let pair = Pair::of(matrix, run.maker.random.labels());
                let half = Half { field, t_values: run.maker.random.t_values(field), pair, target };
                let expected = if expected == 0 { 9 } else { expected };
                run.over(&SecondHalf, field, SecondHalf::parts(&half, vec![]), Some(expected))?;
            }
            for other in Field::BOTH {
                let parts = run.maker.accepted(&SecondHalf, field, Size::Short).parts;
                run.over(&SecondHalf, other, parts, Some(0).filter(|_| field == other))?;
            }
        }
        Ok(())
    }

    /// Replaces an accepted half by one with plainer parts and fewer letters, with a new target for them.
    fn shrunk(&self, shrinker: &Shrinker, input: Input) -> Input {
        if self.call(By::Reference, &input).answer != 0 {
            return input;
        }
        let (mut half, codes) = (half_of(&input), letters(&input.parts[4]));
        let solved = |half: &Half, codes: &[u8]| {
            let parts = SecondHalf::parts(&signed_by(*half, codes), word_file(codes));
            Input { parts, ..input.clone() }
        };
        let plainer: [fn(&mut Half); 3] = [
            |half| half.t_values = [1; 8],
            |half| half.pair.matrix = one(),
            |half| half.pair = Pair::of(half.pair.matrix, LIST),
        ];
        for change in plainer {
            let mut changed = half;
            change(&mut changed);
            if shrinker.fails(&solved(&changed, &codes)) {
                half = changed;
            }
        }
        let codes = cut(codes, &|codes| shrinker.has_time() && shrinker.fails(&solved(&half, codes)));
        Some(solved(&half, &codes)).filter(|smaller| shrinker.fails(smaller)).unwrap_or(input)
    }
}

impl SecondHalf {
    /// The parts of a half and a word. The field is named separately.
    pub fn parts(half: &Half, word: Vec<u8>) -> Parts {
        [half_parts(half), vec![word]].concat()
    }

    /// A number as an entry off the diagonal of either matrix, which is the identity otherwise, and as a T-value.
    fn number(&self, run: &mut Run, field: Field, number: u8) -> Checked {
        let random = &mut run.maker.random;
        let (row, column) = files::two_places(random);
        let plain = Half { pair: Pair::of(one(), random.labels()), ..free(random, field, &[]) };
        let plain = signed_by(plain, &[]);
        let [mut first, mut second, mut changed] = [plain; 3];
        first.pair.matrix[at(row + 1, column + 1)] = number;
        second.target[at(row + 1, column + 1)] = number;
        changed.t_values[random.below(8)] = number;
        let as_entry = if field.has(number) { 9 } else { 17 };
        for (half, expected) in
            [(first, as_entry), (second, as_entry), (changed, if number == 0 { 4 } else { as_entry })]
        {
            run.over(&SecondHalf, field, SecondHalf::parts(&half, vec![]), Some(expected))?;
        }
        Ok(())
    }
}

/// The half of an input.
fn half_of(input: &Input) -> Half {
    let pair = pair_with(input.array(1), input.array(2));
    Half { field: input.named, t_values: input.array(0), pair, target: input.array(3) }
}

/// The half with the target that these letters reach.
fn signed_by(half: Half, codes: &[u8]) -> Half {
    Half { target: carried(half.field, &half.pair, &half.t_values, codes).matrix, ..half }
}

/// A random half, which need not come from a key: any T-values but zero, and any matrix with an inverse. The letters
/// reach its target.
fn free(random: &mut Random, field: Field, codes: &[u8]) -> Half {
    let pair = Pair::of(random.invertible_matrix(field), random.labels());
    signed_by(Half { field, t_values: random.t_values(field), pair, target: one() }, codes)
}

/// Puts faults into a half, in an order and at places such that all of them remain. 14 changes an entry of the target,
/// and 26 replaces whole matrices. 17, 4 and 6 change single numbers.
fn spoil(random: &mut Random, half: &mut Half, faults: &[u8]) {
    if faults.contains(&14) {
        change_target(random, half);
    }
    if faults.contains(&26) {
        for place in random.pick(&files::SINGULAR) {
            let matrix = if *place == 0 { &mut half.pair.matrix } else { &mut half.target };
            *matrix = random.singular_matrix(half.field);
        }
    }
    if faults.contains(&17) {
        let number = files::too_high(random);
        match random.below(3) {
            0 => half.t_values[random.within(0, 3)] = number,
            1 => half.pair.matrix[random.below(64)] = number,
            _ => half.target[random.below(64)] = number,
        }
    }
    if faults.contains(&4) {
        half.t_values[random.within(4, 7)] = 0;
    }
    if faults.contains(&6) {
        files::spoil_lists(random, &mut half.pair);
    }
}

/// Changes an entry of a target with an inverse. The new target has an inverse too.
fn change_target(random: &mut Random, half: &mut Half) {
    let before = half.target;
    while half.target == before || !is_invertible(half.field, &half.target) {
        half.target = before;
        half.target[random.below(64)] = random.element(half.field);
    }
}

fn case(name: &str, t_values: &[u8], matrix: &[u8], lists: &[u8], target: &[u8], word: &[u8]) -> Fixed {
    Fixed::of(&SecondHalf, name, &[t_values, matrix, lists, target, word])
}

/// b2 under the list 7 to 0, as in the cases of `multiply`, over either field. With the two matrices exchanged the word
/// does not reach the target: row 2, column 1 then has 6 + 6 × 6, where 6 × 6 = 20, and not 0.
fn turned() -> Vec<Fixed> {
    let mut cases = Vec::new();
    for (field, entry, row) in
        [(Field::Gf32, 2, [13, 12, 1, 4, 5, 6, 7, 8]), (Field::Gf256, 128, [38, 39, 131, 4, 5, 6, 7, 8])]
    {
        let before = with_row(identity(), 1, [1, entry, 3, 4, 5, 6, 7, 8]);
        let after = with_row(with_row(identity(), 1, row), 2, [6, 6, 1, 0, 0, 0, 0, 0]);
        let name = "b2 under the list 7 to 0";
        cases.push(case(name, &T_VALUES, &before, &TURNED_LISTS, &after, &hex("00 01 10")).over(field));
        cases.push(
            case(name, &T_VALUES, &after, &TURNED_LISTS, &before, &hex("00 01 10")).over(field).refused(14),
        );
        cases.push(case(name, &T_VALUES, &before, &LISTS, &after, &hex("00 01 10")).over(field).refused(14));
    }
    cases
}

/// A word under the half of the plain key over a field and a digest of zeros.
fn for_zeros(field: Field, name: &str, word: &[u8]) -> Fixed {
    let [a, b, c] = zeros_reach(field);
    let target = with_row(identity(), 7, [0, 0, 0, 0, 0, a, b, c]);
    case(name, &T_VALUES, &identity(), &LISTS, &target, word)
}

/// b7 as often as in the cases of `verify`, and half as often. 64 letters have 18^32 = 18 in row 7, column 7. The
/// target of the larger field has numbers that are not elements of the smaller.
fn of_zeros() -> Vec<Fixed> {
    let (small, large) = (Field::Gf32, Field::Gf256);
    vec![
        for_zeros(small, "b7, 128 times", &sevens(128)),
        for_zeros(small, "b7, 64 times", &sevens(64)).refused(14),
        for_zeros(small, "the empty word", &[0, 0]).refused(14),
        for_zeros(large, "b7, 256 times", &sevens(256)).large(),
        for_zeros(large, "b7, 128 times", &sevens(128)).large().refused(14),
        for_zeros(large, "the empty word", &[0, 0]).large().refused(14),
        for_zeros(large, "b7, 256 times, over the smaller field", &sevens(256)).refused(17),
    ]
}

/// Question 5 is not asked of a half: with T-value 3 at label 0, b1 has 3, 1 in row 1. Row 8 may hold any elements: b3
/// with T-value 2 turns a 5 in column 3 into 10, 10, 5 in columns 2 to 4. The named field decides: b3⁻¹ has 1, 1/3, 1/3
/// in row 3, and 1/3 is 28 over the smaller field and 244 over the larger.
fn of_no_key() -> Vec<Fixed> {
    let good = identity();
    let first = with_row(identity(), 1, [3, 1, 0, 0, 0, 0, 0, 0]);
    let before = with_row(identity(), 8, [0, 0, 5, 0, 0, 0, 0, 1]);
    let after = with_row(with_row(identity(), 3, [0, 2, 2, 1, 0, 0, 0, 0]), 8, [0, 10, 10, 5, 0, 0, 0, 1]);
    let thirds = |third: u8| {
        let target = with_row(identity(), 3, [0, 1, third, third, 0, 0, 0, 0]);
        case(&format!("b3⁻¹ with {third}"), &T_VALUES, &good, &LISTS, &target, &hex("00 01 A0"))
    };
    vec![
        case("T-values 3 2", &[3, 2, 1, 1, 1, 1, 1, 1], &good, &LISTS, &first, &hex("00 01 00")),
        case("row 8 with 5", &T_VALUES, &before, &LISTS, &after, &hex("00 01 20")),
        thirds(28),
        thirds(28).large().refused(14),
        thirds(244).refused(17),
        thirds(244).large(),
    ]
}

/// The questions in their order. Each faulty half also has the faults of later questions. The word's questions come
/// before 14.
fn refusals() -> Vec<Fixed> {
    let (good, zeros, none, unlisted) = (identity(), [0; 64], [0; 8], [0; 16]);
    let edge = [&good[..63], &[32]].concat();
    let high = [1, 1, 2, 3, 4, 5, 6, 32];
    let mut cases = vec![
        case("T-value 32", &high, &zeros, &unlisted, &zeros, &[]).refused(17),
        case("entry 32", &none, &edge, &unlisted, &zeros, &[]).refused(17),
        case("target 32", &none, &zeros, &unlisted, &edge, &[]).refused(17),
        case("T-value 32", &high, &good, &LISTS, &good, &[0, 0]).large(),
        case("entries 32", &T_VALUES, &edge, &LISTS, &edge, &[0, 0]).large(),
    ];
    for field in Field::BOTH {
        let half = |name: &str, t_values: &[u8], matrix: &[u8], lists: &[u8], target: &[u8]| {
            case(name, t_values, matrix, lists, target, &[]).over(field)
        };
        let stale = |name: &str, positions: [u8; 8]| {
            half(name, &T_VALUES, &zeros, &[LIST, positions].concat(), &zeros).refused(6)
        };
        cases.extend([
            half("T-values 0", &none, &zeros, &unlisted, &zeros).refused(4),
            half("the first T-value 0", &[0, 1, 2, 3, 4, 5, 6, 7], &zeros, &unlisted, &zeros).refused(4),
            half("labels 0", &T_VALUES, &zeros, &unlisted, &zeros).refused(6),
            stale("positions 0", [0; 8]),
            stale("positions from 0", LIST),
            stale("positions after b7", [1, 2, 3, 4, 5, 6, 8, 7]),
            half("labels 1 to 8", &T_VALUES, &zeros, &[[1, 2, 3, 4, 5, 6, 7, 8]; 2].concat(), &zeros)
                .refused(6),
            half("both matrices zero", &T_VALUES, &zeros, &LISTS, &zeros).refused(26),
            half("a matrix of zeros", &T_VALUES, &zeros, &LISTS, &good).refused(26),
            half("a target of zeros", &T_VALUES, &good, &LISTS, &zeros).refused(26),
        ]);
        for (word, answer) in
            [("", 9), ("27 11", 10), ("00 02", 11), ("00 01 70", 12), ("00 01 21", 13), ("00 01 20", 14)]
        {
            let name = format!("the word {word}");
            cases.push(case(&name, &T_VALUES, &good, &LISTS, &good, &hex(word)).over(field).refused(answer));
        }
    }
    cases
}
