//! The key writer.

use reference::file_entries;
use reference::matrix::{at, identity as one};

use crate::operation::prelude::*;
use crate::plan::keys::matrices;

pub struct WriteKey;

impl Operation for WriteKey {
    fn facts(&self) -> Facts {
        let parts = &[parts::T_VALUES, parts::LABELS, parts::FIRST, parts::SECOND];
        let facts = Facts::of("write_key", &[16, 17, 4, 5, 6, 26], parts);
        Facts { over: Over::Named, output: Output::Least(Field::key_bytes, 16), share: 11, ..facts }
    }

    fn make(&self, maker: &mut Maker, field: Field, faults: &[u8], _: Size) -> Option<Parts> {
        let random = &mut maker.random;
        let mut matrices = files::matrices(random, field, faults).map(|matrix| file_entries(&matrix));
        let (high, in_matrix) = (faults.contains(&17), random.one_in(2));
        if high && in_matrix {
            let place = random.pick(&[0, 55, 56]);
            matrices[random.below(2)][place] = files::too_high(random);
        }
        let mut t_values = random.key_t_values(field);
        files::spoil_t_values(random, &mut t_values, faults.contains(&4), high && !in_matrix);
        if faults.contains(&5) {
            t_values[random.below(2)] = random.element_from(field, 2);
        }
        let [first, second] = matrices.map(|entries| entries.to_vec());
        Some(vec![t_values.to_vec(), files::list(random, faults), first, second])
    }

    fn call(&self, by: By, input: &Input) -> Outcome {
        let (t_values, labels) = (&input.array(0), &input.array(1));
        let (first, second) = (&input.array(2), &input.array(3));
        input.lending(|out| {
            let (bytes, room) = (out.as_mut_ptr(), out.len());
            Outcome::of(match by {
                By::Library => unsafe {
                    // SAFETY: see `Operation::call`.
                    walnut_write_key(input.large(), t_values, labels, first, second, bytes, room)
                },
                By::Reference => reference::write_key(input.named, t_values, labels, first, second, out),
            })
        })
    }

    fn fixed(&self) -> Vec<Fixed> {
        let accepted = keys::accepted().into_iter().map(|key| {
            let [first, second] = key.matrices.map(|matrix| entries(&matrix));
            let parts: [&[u8]; 4] = [&key.t_values, &key.lists[..8], &first, &second];
            Fixed::of(&WriteKey, key.name, &parts).over(key.field).writes(&key.file)
        });
        accepted.chain(without_room()).chain(refusals()).chain(without_inverse()).collect()
    }

    /// Each number as an entry and as a T-value. Numbers from 32 on are elements only of the larger field. A T-value is
    /// not 0. The matrices are the identity with the number above the diagonal, so they have an inverse. Then matrices
    /// with and without an inverse.
    fn small(&self, run: &mut Run) -> Checked {
        for field in Field::BOTH {
            for number in 0..=255 {
                let as_entry = if field.has(number) { 0 } else { 17 };
                self.number(run, field, number, as_entry, if number == 0 { 4 } else { as_entry })?;
            }
            for (matrices, expected) in matrices(&mut run.maker.random, field) {
                let random = &mut run.maker.random;
                let parts = vec![random.key_t_values(field).to_vec(), random.labels().to_vec()];
                let entries = matrices.map(|matrix| file_entries(&matrix).to_vec()).to_vec();
                run.over(&WriteKey, field, [parts, entries].concat(), Some(expected))?;
            }
        }
        Ok(())
    }
}

impl WriteKey {
    fn number(&self, run: &mut Run, field: Field, number: u8, as_entry: u8, as_t_value: u8) -> Checked {
        let random = &mut run.maker.random;
        let (t_values, labels) = (random.key_t_values(field).to_vec(), random.labels().to_vec());
        let (mut matrix, mut changed) = (one(), t_values.clone());
        let row = random.within(1, 7);
        matrix[at(row, random.within(row + 1, 8))] = number;
        changed[random.within(2, 7)] = number;
        let [good, other] = [one(), matrix].map(|matrix| file_entries(&matrix).to_vec());
        for (t_values, first, second, expected) in [
            (&t_values, &other, &good, as_entry),
            (&t_values, &good, &other, as_entry),
            (&changed, &good, &good, as_t_value),
        ] {
            let parts = vec![t_values.clone(), labels.clone(), first.clone(), second.clone()];
            run.over(&WriteKey, field, parts, Some(expected))?;
        }
        Ok(())
    }
}

fn case(name: &str, t_values: &[u8], labels: &[u8], first: &[u8], second: &[u8]) -> Fixed {
    Fixed::of(&WriteKey, name, &[t_values, labels, first, second])
}

fn without_room() -> Vec<Fixed> {
    let good = entries(&identity());
    let plain = || case("the plain key", &T_VALUES, &LIST, &good, &good);
    vec![
        plain().room(82).refused(16),
        plain().large().room(127).refused(16),
        plain().large().room(83).refused(16),
    ]
}

/// The questions in their order. Matrices of zeros, which have no inverse, come with an earlier fault.
fn refusals() -> Vec<Fixed> {
    let (t_values, zeros) = (T_VALUES, [0; 57]);
    let (good, high) =
        (entries(&identity()), entries(&with_row(identity(), 1, [1, 32, 255, 128, 64, 200, 100, 33])));
    let over = [1, 1, 32, 33, 64, 128, 254, 255];
    vec![
        case("zeros, 82 bytes of room", &t_values, &LIST, &zeros, &zeros).room(82).refused(16),
        case("entries 32 and zeros", &t_values, &LIST, &[32; 57], &zeros).refused(17),
        case("T-values over 31", &over, &LIST, &good, &good).refused(17),
        case("first entries over 31", &t_values, &LIST, &high, &good).refused(17),
        case("second entries over 31", &t_values, &LIST, &good, &high).refused(17),
        case("zeros, a T-value 0", &[1, 1, 0, 3, 4, 5, 6, 7], &LIST, &zeros, &zeros).refused(4),
        case("zeros, T-values 1 2", &[1, 2, 2, 3, 4, 5, 6, 7], &LIST, &zeros, &zeros).refused(5),
        case("zeros, labels 0 0", &t_values, &[0, 0, 2, 3, 4, 5, 6, 7], &zeros, &zeros).refused(6),
    ]
}

/// Matrices without an inverse, as the first, as the second, and as both: all zeros; row 8 zero; two equal rows; a row
/// that is the sum of two others; row 2 = 16 times row 1, since 16 × 2 = 5; row 1 = 3 times row 2, since 3 × 28 = 1.
/// Over the larger field the rows 1 2 and 128 29 have the determinant 29 + 2 × 128 = 0.
fn without_inverse() -> Vec<Fixed> {
    let good = entries(&identity());
    let mut cases = Vec::new();
    for (name, field, matrix) in [
        ("zeros", Field::Gf32, vec![0; 64]),
        ("ones in columns 2 to 8 of rows 1 to 7", Field::Gf32, keys::ones([2, 3, 4, 5, 6, 7, 8, 0])),
        ("row 2 as row 1", Field::Gf32, with_row(identity(), 2, [1, 0, 0, 0, 0, 0, 0, 0])),
        ("row 3 the sum of rows 1 and 2", Field::Gf32, with_row(identity(), 3, [1, 1, 0, 0, 0, 0, 0, 0])),
        ("rows 1 2 and 16 5", Field::Gf32, keys::with_two_rows([1, 2], [16, 5])),
        ("rows 3 1 and 1 28", Field::Gf32, keys::with_two_rows([3, 1], [1, 28])),
        ("rows 1 2 and 128 29", Field::Gf256, keys::with_two_rows([1, 2], [128, 29])),
    ] {
        let bad = entries(&matrix);
        for (place, first, second) in [("first", &bad, &good), ("second", &good, &bad), ("both", &bad, &bad)]
        {
            let name = format!("{name}, {place}");
            cases.push(case(&name, &T_VALUES, &LIST, first, second).over(field).refused(26));
        }
    }
    cases
}
