//! Makers of inputs: without faults, with chosen faults, damaged, and of random bytes.
//!
//! For an input with known faults, the papers' order of questions gives the answer before anything is run. Inputs of
//! operations without a field are made over the smaller field.

pub mod files;
pub mod shelves;

use reference::testkit::{Random, Slip};
use reference::word::MOST_LETTERS;
use reference::Field;

use crate::case::{Input, Parts};
use crate::operation::{Form, Op, Output, Over};

/// How long a word is.
#[derive(Clone, Copy, Debug, PartialEq, Eq)]
pub enum Size {
    Short,
    Middle,
    Long,
}

/// A maker of inputs, with its source of random numbers.
pub struct Maker {
    pub random: Random,
}

impl Maker {
    /// The codes of a random word of this size.
    pub fn codes(&mut self, size: Size) -> Vec<u8> {
        let letters = match size {
            Size::Short => self.random.within(0, 16),
            Size::Middle => self.random.within(17, 300),
            Size::Long => MOST_LETTERS - self.random.pick(&[0, 0, 0, 1, 2, 3, 20]),
        };
        if self.random.one_in(4) {
            self.random.word(letters)
        } else {
            self.random.tangled_word(letters)
        }
    }

    /// A word file. Faults: 9 to 13.
    pub fn word(&mut self, faults: &[u8], size: Size) -> Vec<u8> {
        let codes = self.codes(size);
        files::word(&mut self.random, &codes, faults)
    }

    /// A key file. Faults: 1 to 7, 26.
    pub fn key(&mut self, field: Field, faults: &[u8]) -> Vec<u8> {
        let key = self.random.invertible_key(field);
        files::key(&mut self.random, field, &key, faults)
    }

    /// A digest. Most digests are zeros except for one byte, so that their braids are short.
    pub fn digest(&mut self, field: Field) -> Vec<u8> {
        let bytes = field.digest_bytes();
        let mut digest = vec![0; bytes];
        match self.random.below(8) {
            0 => self.random.digest(field),
            1 => vec![self.random.byte(); bytes],
            _ => {
                digest[self.random.below(bytes as u64)] = self.random.byte();
                digest
            }
        }
    }

    /// A slip that the verdict accepts.
    pub fn slip(&mut self, field: Field, codes: &[u8]) -> Slip {
        let digest = self.digest(field);
        self.random.accepted_slip(field, &digest, codes)
    }

    /// An input of these parts, with enough room for the output.
    pub fn input(&mut self, operation: Op, field: Field, parts: Parts) -> Input {
        let facts = operation.facts();
        let more = self.random.within(1, 100);
        let room = match facts.output {
            Output::Nothing => 0,
            Output::Fixed(bytes) => bytes,
            Output::Least(least, _) => least(field) + self.random.pick(&[0, 1, more]),
        };
        let named = if facts.over == Over::Named { field } else { Field::Gf32 };
        Input { operation, named, parts, room, fill: self.random.byte() }
    }

    /// An input with these faults, and the answer that it must get. It has no other faults that change the answer.
    /// `None` if no input can have these faults together.
    pub fn with_faults(
        &mut self,
        operation: Op,
        field: Field,
        faults: &[u8],
        size: Size,
    ) -> Option<(Input, u8)> {
        let parts = operation.make(self, field, faults, size)?;
        let mut input = self.input(operation, field, parts);
        if let Output::Least(least, refusal) = operation.facts().output {
            if faults.contains(&refusal) {
                input.room = least(field) - self.random.pick(&[1, 2, 45, 80, 83]);
            }
        }
        Some((input, operation.facts().answer_to(faults)))
    }

    /// An input without faults.
    pub fn accepted(&mut self, operation: Op, field: Field, size: Size) -> Input {
        self.with_faults(operation, field, &[], size).expect("an input without faults can be made").0
    }

    /// At most `most` random faults: numbers of the operation's questions over a field.
    pub fn faults(&mut self, operation: Op, field: Field, most: usize) -> Vec<u8> {
        let questions = operation.facts().questions_over(field);
        let mut faults: Vec<u8> =
            (0..most.min(questions.len())).map(|_| self.random.pick(&questions)).collect();
        faults.sort_unstable();
        faults.dedup();
        faults
    }

    /// The input with a few bytes changed, cut out or inserted at random places.
    pub fn damaged(&mut self, mut input: Input) -> Input {
        let parts = input.facts().parts;
        for _ in 0..self.random.within(1, 3) {
            if !parts.is_empty() {
                let place = self.random.below(parts.len() as u64);
                let fixed = matches!(parts[place].form, Form::Fixed(_));
                files::damage(&mut self.random, &mut input.parts[place], fixed);
            }
        }
        input
    }

    /// An input of random bytes. Only the numbers at the head of words and move lists are small.
    pub fn blind(&mut self, operation: Op) -> Input {
        let parts = operation.facts().parts.iter().map(|part| self.blind_part(part.form)).collect();
        let field = self.random.pick(operation.facts().fields());
        let mut input = self.input(operation, field, parts);
        if self.random.one_in(8) && operation.facts().least_room(field).is_some() {
            input.room = self.random.below(6_000);
        }
        input
    }

    fn blind_part(&mut self, form: Form) -> Vec<u8> {
        let length = self.random.pick(&[0, 1, 2, 8, 32, 64, 83, 128, 7]);
        match form {
            Form::Fixed(length) => {
                let bound = self.random.pick(&[8, 16, 32, 33, 256]);
                (0..length).map(|_| self.random.below(bound) as u8).collect()
            }
            Form::Bytes => self.random.bytes(length),
            Form::Word => {
                let (number, bytes) = (self.random.below(6) as u8, self.random.below(4));
                [vec![0, number], self.random.bytes(bytes)].concat()
            }
            Form::Moves => {
                let number = self.random.below(3) as u8;
                [vec![0, number], self.random.bytes(3 * usize::from(number))].concat()
            }
        }
    }
}

#[cfg(test)]
mod tests {
    use super::*;
    use crate::operation::By;
    use crate::operations::over_fields;

    /// For each operation, each field and each two faults, the reference gives the answer that the papers' order of
    /// questions gives.
    #[test]
    fn faults_are_what_they_are_called() {
        let mut maker = Maker { random: Random::seeded(51) };
        for (operation, field) in over_fields() {
            let questions = operation.facts().questions_over(field);
            let pairs = questions.iter().flat_map(|first| questions.iter().map(|second| [*first, *second]));
            for faults in pairs.map(|pair| pair.to_vec()).chain([vec![]]) {
                for _ in 0..6 {
                    let case = maker.with_faults(operation, field, &faults, Size::Short);
                    let Some((input, expected)) = case else { continue };
                    let (answer, name) = (input.outcome(By::Reference).answer, operation.facts().name);
                    assert_eq!(answer, expected, "{name} {field:?} {faults:?}");
                }
            }
        }
    }
}
