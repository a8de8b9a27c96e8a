//! The first half of the verdict.

use reference::{first_half, Half, Halved};

use crate::library::{half_of, half_parts};
use crate::operation::prelude::*;

pub struct FirstHalf;

impl Operation for FirstHalf {
    fn facts(&self) -> Facts {
        let facts = Facts::of("first_half", &[1, 2, 3, 4, 5, 6, 7, 26, 8], &[parts::KEY, parts::DIGEST]);
        Facts { over: Over::Key, numbers: &["large"], share: 4, ..facts }
    }

    fn make(&self, maker: &mut Maker, field: Field, faults: &[u8], _: Size) -> Option<Parts> {
        let (key, digest) = (maker.key(field, faults), maker.digest(field));
        Some(vec![key, files::digest(&mut maker.random, field, &digest, faults)])
    }

    /// The bytes are the parts that the second half takes, one after another.
    fn call(&self, by: By, input: &Input) -> Outcome {
        let [key, digest] = input.slices();
        let Halved { answer, half } = match by {
            By::Library => {
                let (file, n) = (key.as_ptr(), key.len());
                // SAFETY: see `Operation::call`.
                let halved = unsafe { walnut_first_half(file, n, digest.as_ptr(), digest.len()) };
                Halved { answer: halved.answer, half: half_of(halved.half) }
            }
            By::Reference => first_half(key, digest),
        };
        Outcome::of(answer).number(half.field == Field::Gf256).bytes(half_parts(&half).concat())
    }

    /// All zeros.
    fn refused(&self, _: &Input) -> Vec<u8> {
        half_parts(&Half::ZEROS).concat()
    }

    fn fixed(&self) -> Vec<Fixed> {
        accepted().into_iter().chain(refusals()).collect()
    }

    /// Digests of each length with an accepted key. Only the length that goes with the key is accepted.
    fn small(&self, run: &mut Run) -> Checked {
        for field in Field::BOTH {
            let key = run.maker.key(field, &[]);
            for length in 0..=130 {
                let digest = run.maker.random.bytes(length);
                let expected = if length == field.digest_bytes() { 0 } else { 8 };
                run.parts(&FirstHalf, vec![key.clone(), digest], Some(expected))?;
            }
        }
        Ok(())
    }
}

fn case(name: &str, key: &[u8], digest: &[u8]) -> Fixed {
    Fixed::of(&FirstHalf, name, &[key, digest])
}

/// A key with a digest of zero bytes. The digest's matrix differs from the identity only in row 7. So the target
/// differs from the second matrix only in row 7, which is given.
fn of_zeros(key: &keys::Key, row: [u8; 8]) -> Fixed {
    let [first, second] = &key.matrices;
    let target = with_row(second.clone(), 7, row);
    let bytes = [&key.t_values[..], first, &key.lists, &target].concat();
    let digest = vec![0; key.field.digest_bytes()];
    case(key.name, &key.file, &digest).number((key.field == Field::Gf256).into()).bytes(bytes)
}

/// The accepted keys with document 01's T-values, in their order. Row 7 of the target is row 7 of the digest's matrix
/// times the second matrix. In the keys whose parts differ row 8 ends in 10, and 22 × 10 = 8, or 65 × 10 = 176 over the
/// larger field. The permutation matrix has the ones of rows 6, 7 and 8 in columns 2, 1 and 8. The other second
/// matrices have rows 6 to 8 of the identity.
fn accepted() -> Vec<Fixed> {
    let [[a, b, c], [d, e, f]] = Field::BOTH.map(zeros_reach);
    let rows = [
        [0, 0, 0, 0, 0, a, b, 8],
        [0, 0, 0, 0, 0, d, e, 176],
        [0, 0, 0, 0, 0, a, b, c],
        [0, 0, 0, 0, 0, d, e, f],
        [b, a, 0, 0, 0, 0, 0, c],
        [0, 0, 0, 0, 0, a, b, c],
        [0, 0, 0, 0, 0, d, e, f],
    ];
    keys::accepted().iter().zip(rows).map(|(key, row)| of_zeros(key, row)).collect()
}

/// The key's questions come before 8. Question 8 asks for the digest length that goes with the key.
fn refusals() -> Vec<Fixed> {
    let [small, large] = Field::BOTH.map(keys::plain);
    let mut cases = vec![
        case("no bytes", &[], &[]).refused(1),
        case("the large key with 32 bytes", &large, &[0; 32]).refused(8),
        case("the small key with 64 bytes", &small, &[0; 64]).refused(8),
        case("the small key with no bytes", &small, &[]).refused(8),
    ];
    for (name, key, answer) in keys::refused() {
        let digests: [&[u8]; 3] = [&[], &[0; 32], &[0; 64]];
        cases.extend(digests.map(|digest| case(&name, &key, digest).refused(answer)));
    }
    cases
}
