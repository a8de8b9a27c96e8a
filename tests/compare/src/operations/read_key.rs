//! The key reader.

use reference::Key;

use crate::library::{by_rows, pair_bytes, pair_of};
use crate::operation::prelude::*;

pub struct ReadKey;

impl Operation for ReadKey {
    fn facts(&self) -> Facts {
        let facts = Facts::of("read_key", &[1, 2, 3, 4, 5, 6, 7, 26], &[parts::KEY]);
        Facts { over: Over::Key, numbers: &["large"], share: 12, ..facts }
    }

    fn make(&self, maker: &mut Maker, field: Field, faults: &[u8], _: Size) -> Option<Parts> {
        Some(vec![maker.key(field, faults)])
    }

    /// The bytes are the T-values, the first matrix, the lists and the second matrix, one after another.
    fn call(&self, by: By, input: &Input) -> Outcome {
        let [file] = input.slices();
        let key = match by {
            By::Library => {
                // SAFETY: see `Operation::call`.
                let key = unsafe { walnut_read_key(file.as_ptr(), file.len()) };
                let field = if key.large { Field::Gf256 } else { Field::Gf32 };
                let (pair, second) = (pair_of(key.pair), by_rows(&key.second));
                Key { answer: key.answer, field, t_values: key.t_values, pair, second }
            }
            By::Reference => reference::read_key(file),
        };
        let bytes = [&key.t_values[..], &pair_bytes(&key.pair), &key.second].concat();
        Outcome::of(key.answer).number(key.field == Field::Gf256).bytes(bytes)
    }

    /// All zeros.
    fn refused(&self, _: &Input) -> Vec<u8> {
        vec![0; 8 + 64 + 16 + 64]
    }

    fn fixed(&self) -> Vec<Fixed> {
        let read = |name: &str, file: &[u8]| Fixed::of(&ReadKey, name, &[file]);
        let accepted = keys::accepted().into_iter().map(|key| {
            let [first, second] = &key.matrices;
            let bytes = [&key.t_values[..], first, &key.lists, second].concat();
            read(key.name, &key.file).number((key.field == Field::Gf256).into()).bytes(bytes)
        });
        let refused =
            keys::refused().into_iter().map(|(name, file, answer)| read(&name, &file).refused(answer));
        accepted.chain(refused).collect()
    }
}
