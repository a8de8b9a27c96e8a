//! Tests keys of every length, q and rank in each operation that takes a key. Also tests that a key that is read and
//! written again has the same bytes.

use reference::matrix::{at, identity};
use reference::testkit::{inverse_matrix, Random};
use reference::{Field, Matrix};

use crate::case::GUARD;
use crate::make::{files, Size};
use crate::operation::parts;
use crate::operations::file_entries::FileEntries;
use crate::operations::read_key::ReadKey;
use crate::operations::write_key::WriteKey;
use crate::operations::ALL;
use crate::plan::{Checked, Failure, Run, MATRICES, VARIANTS};

/// The two matrices of a key, and the answer that a key with them gets if its other parts have no faults: 0 or 26.
pub type Matrices = ([Matrix; 2], u8);

/// Key files, each with its answer.
type Keys = Vec<(Vec<u8>, u8)>;

/// Pairs of matrices for a key. Some have a given rank from 0 to 8, in the first place, in the second, or in both. Some
/// are the identity matrix with one of the entries that a key file holds changed to zero, to one, or to another
/// element. Some are random, with few zeros or with many, and some are permutation matrices. Elimination decides which
/// matrices have an inverse.
pub fn matrices(random: &mut Random, field: Field) -> Vec<Matrices> {
    let mut all = Vec::new();
    for rank in (0..=8).flat_map(|rank| [rank; VARIANTS]) {
        let [matrix, other] = [0; 2].map(|_| random.key_matrix_of_rank(field, rank));
        let good = random.invertible_key_matrix(field);
        all.extend([[matrix, good], [good, matrix], [matrix, other]]);
    }
    let places = (1..=7).flat_map(|row| (1..=8).map(move |column| at(row, column)));
    for place in places.chain([at(8, 8)]) {
        for entry in [0, 1, random.element_from(field, 2)] {
            let mut matrix = identity();
            matrix[place] = entry;
            all.extend([[matrix, identity()], [identity(), matrix]]);
        }
    }
    for _ in 0..MATRICES {
        let good = random.permutation_matrix();
        for matrix in [random.key_matrix(field), random.sparse_key_matrix(field), random.permutation_matrix()]
        {
            all.extend([[matrix, good], [good, matrix]]);
        }
    }
    let invertible = |both: &[Matrix; 2]| both.iter().all(|matrix| inverse_matrix(field, matrix).is_some());
    all.into_iter().map(|both| (both, if invertible(&both) { 0 } else { 26 })).collect()
}

impl Run {
    /// Runs all tests of keys over one field.
    pub fn keys(&mut self, field: Field) -> Checked {
        self.each_key(field, &|_, key| every_length(field, key))?;
        self.each_key(field, &|_, key| every_q(field, key))?;
        self.each_key(field, &|random, key| every_matrix(random, field, key))?;
        for _ in 0..MATRICES {
            self.key_back(field)?;
        }
        Ok(())
    }

    /// For each operation that takes a key, replaces the key of an accepted input by each of these keys, and expects
    /// the key's answer. Exception: if the new key is accepted and the operation asks question 14, the answer may be 0
    /// or 14.
    fn each_key(&mut self, field: Field, keys: &dyn Fn(&mut Random, &[u8]) -> Keys) -> Checked {
        for operation in ALL {
            let facts = operation.facts();
            let Some(place) = facts.place(parts::KEY) else { continue };
            let input = self.maker.accepted(operation, field, Size::Short);
            for (key, answer) in keys(&mut self.maker.random, &input.parts[place]) {
                let free = answer == 0 && key != input.parts[place] && facts.questions.contains(&14);
                let mut other = input.clone();
                other.parts[place] = key;
                self.input(other, Some(answer).filter(|_| !free))?;
            }
        }
        Ok(())
    }

    /// Reads a key file, and writes a key from the result. The matrices are written by the entries that a key file
    /// holds. The written file must have the same bytes.
    fn key_back(&mut self, field: Field) -> Checked {
        let file = self.maker.random.invertible_key(field);
        let outcome = self.parts(&ReadKey, vec![file.clone()], Some(0))?;
        let (named, read) = (Field::BOTH[outcome.numbers[0] as usize], outcome.bytes);
        let (t_values, labels) = (read[..8].to_vec(), read[72..80].to_vec());
        let parts =
            vec![t_values, labels, FileEntries::of(self, &read[8..72])?, FileEntries::of(self, &read[88..])?];
        let input = self.maker.input(&WriteKey, named, parts);
        let written = self.input(input.clone(), Some(0))?.bytes;
        if written[GUARD..GUARD + file.len()] != file {
            let account = "the key was read and written again, and its bytes changed".to_string();
            return Err(Box::new(Failure::Unexpected(input, account)));
        }
        Ok(())
    }
}

/// The key cut, or lengthened by zeros, to each length up to 300. Only 83 and 128 are lengths of keys.
fn every_length(field: Field, key: &[u8]) -> Keys {
    let with_length = |length: usize| {
        let mut file = key.to_vec();
        file.resize(length, 0);
        let answer = match Field::BOTH.into_iter().find(|field| field.key_bytes() == length) {
            None => 1,
            Some(of_length) if of_length != field => 3,
            Some(_) => 0,
        };
        (file, answer)
    };
    (0..=300).map(with_length).collect()
}

/// The key with q replaced: by each number up to 511, and by each number up to 65,535 whose low byte is 0 or 32.
fn every_q(field: Field, key: &[u8]) -> Keys {
    let with_q = |q: u16| {
        let answer = if q == field.size() { 0 } else { 3 };
        ([&key[..1], &q.to_be_bytes(), &key[3..]].concat(), answer)
    };
    (0..512).chain((2..256).flat_map(|high| [256 * high, 256 * high + 32])).map(with_q).collect()
}

/// The key with other matrices. Some of the matrices have no inverse.
fn every_matrix(random: &mut Random, field: Field, key: &[u8]) -> Keys {
    let with_matrices = |([first, second], answer): Matrices| {
        let file = files::with_matrix(field, key, 0, &first);
        (files::with_matrix(field, &file, 1, &second), answer)
    };
    matrices(random, field).into_iter().map(with_matrices).collect()
}
