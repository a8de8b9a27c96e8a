//! The entries of a matrix that a key file holds.

use reference::key::{Entries, PACKED_ENTRIES};

use crate::case::GUARD;
use crate::library::by_columns;
use crate::operation::prelude::*;
use crate::plan::MATRICES;

pub struct FileEntries;

impl FileEntries {
    /// Compares the entries of a matrix, and returns them.
    pub fn of(run: &mut Run, matrix: &[u8]) -> Checked<Vec<u8>> {
        let outcome = run.parts(&FileEntries, vec![matrix.to_vec()], Some(0))?;
        Ok(outcome.bytes[GUARD..GUARD + PACKED_ENTRIES].to_vec())
    }
}

impl Operation for FileEntries {
    fn facts(&self) -> Facts {
        let output = Output::Fixed(PACKED_ENTRIES);
        Facts { output, share: 1, ..Facts::of("file_entries", &[], &[parts::MATRIX]) }
    }

    fn make(&self, maker: &mut Maker, _: Field, _: &[u8], _: Size) -> Option<Parts> {
        Some(vec![maker.random.bytes(64)])
    }

    fn call(&self, by: By, input: &Input) -> Outcome {
        let matrix = input.array(0);
        input.lending(|out| {
            let out: &mut Entries = out.try_into().expect("a fixed output keeps its length");
            match by {
                // SAFETY: see `Operation::call`.
                By::Library => unsafe { walnut_file_entries(&by_columns(&matrix), out) },
                By::Reference => *out = reference::file_entries(&matrix),
            }
            Outcome::of(0)
        })
    }

    fn fixed(&self) -> Vec<Fixed> {
        let numbers: Vec<u8> = (0..64).collect();
        vec![Fixed::of(&FileEntries, "the numbers 0 to 63", &[&numbers]).writes(&entries(&numbers))]
    }

    /// Random matrices of any bytes.
    fn small(&self, run: &mut Run) -> Checked {
        for _ in 0..MATRICES {
            let matrix = run.maker.random.bytes(64);
            FileEntries::of(run, &matrix)?;
        }
        Ok(())
    }
}
