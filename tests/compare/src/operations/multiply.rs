//! Multiplies a letter into a lent pair.

use reference::letter::is_letter;

use crate::library::{lent, lists, pair_bytes, pair_of, pair_with};
use crate::operation::prelude::*;

pub struct Multiply;

const LETTER: Part = Part { name: "letter", form: Form::Fixed(1) };

impl Operation for Multiply {
    fn facts(&self) -> Facts {
        let parts = &[parts::MATRIX, parts::LISTS, parts::T_VALUES, LETTER];
        Facts { over: Over::Named, share: 11, ..Facts::of("multiply", &[17, 4, 6, 12], parts) }
    }

    fn make(&self, maker: &mut Maker, field: Field, faults: &[u8], _: Size) -> Option<Parts> {
        let random = &mut maker.random;
        let mut pair = random.pair(field);
        let (high, in_matrix) = (faults.contains(&17), random.one_in(2));
        if high && in_matrix {
            pair.matrix[random.below(64)] = files::too_high(random);
        }
        if faults.contains(&6) {
            files::spoil_lists(random, &mut pair);
        }
        let mut t_values = random.t_values(field);
        files::spoil_t_values(random, &mut t_values, faults.contains(&4), high && !in_matrix);
        let letter = if faults.contains(&12) { files::bad_code(random) } else { random.letter() };
        Some(vec![pair.matrix.to_vec(), lists(&pair), t_values.to_vec(), vec![letter]])
    }

    /// Fixed cases may have more than one letter. Each letter is multiplied into the pair that the letter before left.
    fn call(&self, by: By, input: &Input) -> Outcome {
        let (mut pair, t_values) = (pair_with(input.array(0), input.array(1)), input.array(2));
        let mut multiply = |letter: u8| match by {
            By::Library => {
                let mut held = lent(&pair);
                // SAFETY: see `Operation::call`.
                let answer = unsafe { walnut_multiply(&mut held, input.large(), &t_values, letter) };
                pair = pair_of(held);
                answer
            }
            By::Reference => reference::multiply(&mut pair, input.named, &t_values, letter),
        };
        let refusal = input.parts[3].iter().map(|letter| multiply(*letter)).find(|answer| *answer != 0);
        Outcome::of(refusal.unwrap_or(0)).bytes(pair_bytes(&pair))
    }

    /// The pair stays unchanged.
    fn refused(&self, input: &Input) -> Vec<u8> {
        input.parts[..2].concat()
    }

    fn fixed(&self) -> Vec<Fixed> {
        [turned(), letters(), large_letters(), refusals()].into_iter().flatten().collect()
    }

    /// Each byte as the letter, as an entry, as a T-value, as each label, and as the position of each label. Numbers
    /// from 32 on are elements only of the larger field. A T-value is not 0.
    fn small(&self, run: &mut Run) -> Checked {
        for (field, number) in
            Field::BOTH.into_iter().flat_map(|field| (0..=255).map(move |number| (field, number)))
        {
            let random = &mut run.maker.random;
            let (pair, t_values, letter) = (random.pair(field), random.t_values(field), random.letter());
            let (mut matrix, mut changed) = (pair.matrix, t_values);
            matrix[random.below(64)] = number;
            changed[random.below(8)] = number;
            let as_entry = if field.has(number) { 0 } else { 17 };
            for (matrix, t_values, letter, expected) in [
                (pair.matrix, t_values, number, if is_letter(number) { 0 } else { 12 }),
                (matrix, t_values, letter, as_entry),
                (pair.matrix, changed, letter, if number == 0 { 4 } else { as_entry }),
            ] {
                let parts = vec![matrix.to_vec(), lists(&pair), t_values.to_vec(), vec![letter]];
                run.over(&Multiply, field, parts, Some(expected))?;
            }
            for place in 0..16 {
                let mut changed = lists(&pair);
                changed[place] = number;
                let expected = if changed == lists(&pair) { 0 } else { 6 };
                let parts = vec![pair.matrix.to_vec(), changed, t_values.to_vec(), vec![letter]];
                run.over(&Multiply, field, parts, Some(expected))?;
            }
        }
        Ok(())
    }
}

/// b2 under the list 7 to 0, on the identity matrix with row 1 replaced. Label 6 with T-value 6 stands at position 2.
/// Row 1 becomes 1 + 6 × 2 = 13, 6 × 2 = 12, 3 + 2 = 1. Row 2 becomes 6, 6, 1. Labels 6 and 5 change places: label 5 is
/// then at position 2, and label 6 at position 3. Over the larger field row 1 has 128 in column 2:
/// 6 × 128 = 4 × 128 + 2 × 128 = 58 + 29 = 39, 1 + 39 = 38, 3 + 128 = 131.
fn turned() -> Vec<Fixed> {
    let case = |entry: u8, first: [u8; 8]| {
        let before = with_row(identity(), 1, [1, entry, 3, 4, 5, 6, 7, 8]);
        let after = with_row(with_row(identity(), 1, first), 2, [6, 6, 1, 0, 0, 0, 0, 0]);
        let pair = [&after[..], &[7, 5, 6, 4, 3, 2, 1, 0], &[8, 7, 6, 5, 4, 2, 3, 1]].concat();
        Fixed::of(&Multiply, "b2 under the list 7 to 0", &[&before, &TURNED_LISTS, &T_VALUES, &[1]])
            .bytes(pair)
    };
    vec![case(2, [13, 12, 1, 4, 5, 6, 7, 8]), case(128, [38, 39, 131, 4, 5, 6, 7, 8]).large()]
}

/// The letters, multiplied into the starting pair one after another, give this matrix and these lists.
fn from_start(name: &str, t_values: [u8; 8], letters: &[u8], matrix: Vec<u8>, lists: [u8; 16]) -> Fixed {
    let parts: [&[u8]; 4] = [&identity(), &LISTS, &t_values, letters];
    Fixed::of(&Multiply, name, &parts).bytes([matrix, lists.to_vec()].concat())
}

/// The two lists after b3 or b3⁻¹ from the start.
const SWAPPED: [u8; 16] = [0, 1, 3, 2, 4, 5, 6, 7, 1, 2, 4, 3, 5, 6, 7, 8];

/// Document 01 gives the list of b3⁻¹ b6 b4 b1⁻¹ b2. Source 004, section 8.4, gives its matrix in terms of the
/// T-values: (1 + t1)/t2, t1/t2, 1/t2; t1, t1, 1; t1, t1, (1 + t3)/t4 + 1, t3/t4, 1/t4; 0, 0, t3, t3, 1; and t6, t6, 1
/// in row 6. Here 1/3 = 28 and 2 × 28 = 29.
///
/// b1 b2 b1 and b2 b1 b2 are the same braid (source 000, section 5). Both T-values are 1. In b1 b2 b1, row 1 is 1 1
/// after the first b1, and 0 1 1 at the end. Row 2 is 1 1 1 after b2, and 1 0 1 at the end.
fn letters() -> Vec<Fixed> {
    let row_3 = |entries: [u8; 8]| with_row(identity(), 3, entries);
    let top = with_row(identity(), 1, [0, 1, 1, 0, 0, 0, 0, 0]);
    let five = with_row(top.clone(), 2, [1, 1, 1, 0, 0, 0, 0, 0]);
    let five = with_row(five, 3, [1, 1, 0, 29, 28, 0, 0, 0]);
    let five = with_row(with_row(five, 4, [0, 0, 2, 2, 1, 0, 0, 0]), 6, [0, 0, 0, 0, 5, 5, 1, 0]);
    let three = with_row(top, 2, [1, 0, 1, 0, 0, 0, 0, 0]);
    let reversed = [2, 1, 0, 3, 4, 5, 6, 7, 3, 2, 1, 4, 5, 6, 7, 8];
    let case = |name, letters: &[u8], matrix, lists| from_start(name, T_VALUES, letters, matrix, lists);
    vec![
        case("b3", &[2], row_3([0, 2, 2, 1, 0, 0, 0, 0]), SWAPPED),
        case("b3⁻¹", &[10], row_3([0, 1, 28, 28, 0, 0, 0, 0]), SWAPPED),
        case("b3 b3", &[2, 2], row_3([0, 4, 6, 3, 0, 0, 0, 0]), LISTS),
        case("b3⁻¹ b6 b4 b1⁻¹ b2", &[10, 5, 3, 8, 1], five, [1, 3, 0, 4, 2, 6, 5, 7, 3, 1, 5, 2, 4, 7, 6, 8]),
        case("b1 b2 b1", &[0, 1, 0], three.clone(), reversed),
        case("b2 b1 b2", &[1, 0, 1], three, reversed),
    ]
}

/// Row 3 over the larger field, with T-values 128 and 2 at labels 2 and 3. b3 has 128, 128, 1. b3 b3 has
/// 128 + 2 × 128 = 157, 2 × 128 = 29, 1 + 128 = 129. b3⁻¹ has 1, 1/2, 1/2.
fn large_letters() -> Vec<Fixed> {
    let high = [1, 1, 128, 2, 4, 5, 6, 7];
    let case = |name, t_values, letters: &[u8], row_3, lists| {
        from_start(name, t_values, letters, with_row(identity(), 3, row_3), lists).large()
    };
    vec![
        case("b3", high, &[2], [0, 128, 128, 1, 0, 0, 0, 0], SWAPPED),
        case("b3 b3", high, &[2, 2], [0, 157, 29, 129, 0, 0, 0, 0], LISTS),
        case("b3⁻¹", high, &[10], [0, 1, 142, 142, 0, 0, 0, 0], SWAPPED),
        case("b3⁻¹, plain", T_VALUES, &[10], [0, 1, 244, 244, 0, 0, 0, 0], SWAPPED),
        case("b3 b3, plain", T_VALUES, &[2, 2], [0, 4, 6, 3, 0, 0, 0, 0], LISTS),
    ]
}

/// The questions in their order. Entries and T-values from 32 on are elements only of the larger field.
fn refusals() -> Vec<Fixed> {
    let (good, high, zeros, none) = (identity(), [255; 64], [0; 8], [0; 16]);
    let edge = [&good[..63], &[32]].concat();
    let case = |name: &str, matrix: &[u8], lists: &[u8], t_values: &[u8], letter: u8| {
        Fixed::of(&Multiply, name, &[matrix, lists, t_values, &[letter]])
    };
    let stale = |name: &str, positions: [u8; 8]| {
        case(name, &good, &[LIST, positions].concat(), &T_VALUES, 7).refused(6)
    };
    vec![
        case("entry 32, T-values 0, labels 0, letter 7", &edge, &none, &zeros, 7).refused(17),
        case("T-values 0, labels 0, letter 7", &good, &none, &zeros, 7).refused(4),
        case("labels 0, letter 7", &good, &none, &T_VALUES, 7).refused(6),
        stale("positions 0, letter 7", [0; 8]),
        stale("positions from 0, letter 7", LIST),
        stale("positions after b1, letter 7", [2, 1, 3, 4, 5, 6, 7, 8]),
        stale("label 7 at position 9, letter 7", [1, 2, 3, 4, 5, 6, 7, 9]),
        stale("labels 0 and 1 at position 1, letter 7", [1, 1, 3, 4, 5, 6, 7, 8]),
        case("letter 7", &good, &LISTS, &T_VALUES, 7).refused(12),
        case("letter 15", &good, &LISTS, &T_VALUES, 15).refused(12),
        case("entries 255", &high, &LISTS, &T_VALUES, 0).refused(17),
        case("T-values 32", &good, &LISTS, &[32; 8], 0).refused(17),
        case("entries 255, T-values 0", &high, &none, &zeros, 7).large().refused(4),
        case("entries and T-values 255, labels 0", &high, &none, &[255; 8], 7).large().refused(6),
        case("entries and T-values 255, letter 7", &high, &LISTS, &[255; 8], 7).large().refused(12),
    ]
}
