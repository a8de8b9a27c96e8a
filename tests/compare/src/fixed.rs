//! Fixed cases: inputs with a name and a typed outcome. Both the library and the reference must give this outcome. Each
//! operation has its own cases. They come from document 01's "Slips to check by", from document 02, and from the worked
//! examples of source 000 where document 01 follows it. Other outcomes follow from the papers by the reasoning beside
//! them.

pub mod keys;

use std::collections::BTreeSet;

use reference::Field;

use crate::case::{Input, Outcome, GUARD};
use crate::operation::{By, Op, Output};
use crate::operations::{over_fields, ALL};
use crate::show;

/// The byte from which outputs are made before the call.
const FILL: u8 = 0xAA;

/// An input with its name and its expected outcome.
pub struct Fixed {
    name: String,
    input: Input,
    expected: Outcome,
}

impl Fixed {
    /// A case over the smaller field. Until another method changes it, the expected outcome is answer 0, zeros as
    /// numbers, and an unchanged output. The output has eight bytes more than a writer asks for over either field.
    pub fn of(operation: Op, name: &str, parts: &[&[u8]]) -> Fixed {
        let facts = operation.facts();
        let parts = parts.iter().map(|part| part.to_vec()).collect();
        let room = match facts.output {
            Output::Nothing => 0,
            Output::Fixed(bytes) => bytes,
            Output::Least(least, _) => least(Field::Gf256) + 8,
        };
        let input = Input { operation, named: Field::Gf32, parts, room, fill: FILL };
        let expected = Outcome { answer: 0, numbers: vec![0; facts.numbers.len()], bytes: input.lent() };
        Fixed { name: name.to_string(), input, expected }
    }

    /// Names this field.
    pub fn over(self, field: Field) -> Fixed {
        let name = if field == Field::Gf256 { self.name + ", 256 elements" } else { self.name };
        Fixed { name, input: Input { named: field, ..self.input }, ..self }
    }

    /// Names the larger field.
    pub fn large(self) -> Fixed {
        self.over(Field::Gf256)
    }

    /// Gives the output this number of bytes.
    pub fn room(self, room: usize) -> Fixed {
        let input = Input { room, ..self.input };
        let expected = self.expected.bytes(input.lent());
        Fixed { input, expected, ..self }
    }

    /// Expects this first number.
    pub fn number(mut self, number: i64) -> Fixed {
        self.expected.numbers[0] = number;
        self
    }

    /// Expects this second number.
    pub fn second(mut self, number: i64) -> Fixed {
        self.expected.numbers[1] = number;
        self
    }

    /// Expects these bytes: those that are returned, or those of the lent pair after the call.
    pub fn bytes(self, bytes: Vec<u8>) -> Fixed {
        Fixed { expected: self.expected.bytes(bytes), ..self }
    }

    /// Expects this file, or these entries, at the front of the output, and the rest of the output unchanged. A writer
    /// of words must also return the file's length.
    pub fn writes(mut self, file: &[u8]) -> Fixed {
        self.expected.bytes[GUARD..GUARD + file.len()].copy_from_slice(file);
        if self.input.facts().numbers.first() == Some(&"bytes") {
            self.expected.numbers[0] = file.len() as i64;
        }
        self
    }

    /// Expects a refusal: the output and the lent pair stay unchanged, everything else is zero, and the field is the
    /// smaller one.
    pub fn refused(mut self, answer: u8) -> Fixed {
        self.expected.answer = answer;
        let bytes = self.input.operation.refused(&self.input);
        self.bytes(bytes)
    }

    /// Describes the difference if the outcome found is not the typed one.
    fn account(&self, whose: &str, found: Outcome) -> Option<String> {
        if found == self.expected {
            return None;
        }
        let mut text = format!("walnut_{}, {}: not what is typed\n", self.input.facts().name, self.name);
        text += &format!("  typed: {}\n", show::outcome(&self.input, &self.expected));
        text += &format!("  {whose}: {}\n", show::outcome(&self.input, &found));
        let bytes = self.expected.bytes.iter().zip(&found.bytes).enumerate();
        if let Some((place, (typed, byte))) = bytes.into_iter().find(|(_, (typed, byte))| typed != byte) {
            let name = show::place_name(&self.input, place);
            text += &format!("  {name}: typed {typed:02X}, {whose} {byte:02X}\n");
        }
        Some(text)
    }
}

/// Bytes typed as hexadecimal numbers with spaces between.
pub fn hex(text: &str) -> Vec<u8> {
    text.split_whitespace().map(|byte| u8::from_str_radix(byte, 16).expect("a byte")).collect()
}

/// The list 0 to 7.
pub const LIST: [u8; 8] = [0, 1, 2, 3, 4, 5, 6, 7];

/// The list 0 to 7 and its inverse list: label a stands at position a + 1.
pub const LISTS: [u8; 16] = [0, 1, 2, 3, 4, 5, 6, 7, 1, 2, 3, 4, 5, 6, 7, 8];

/// The list 7 to 0 and its inverse list: label a stands at position 8 - a.
pub const TURNED_LISTS: [u8; 16] = [7, 6, 5, 4, 3, 2, 1, 0, 8, 7, 6, 5, 4, 3, 2, 1];

/// The T-values of document 01's slips.
pub const T_VALUES: [u8; 8] = [1, 1, 2, 3, 4, 5, 6, 7];

/// The word of source 000, section 10.2: b1 b2⁻¹ b3 b4 b5⁻¹ b6 b7⁻¹.
pub const SEVEN: &str = "00 07 09 23 C5 E0";

/// The identity matrix.
pub fn identity() -> Vec<u8> {
    (0..64).map(|place| u8::from(place % 9 == 0)).collect()
}

/// The matrix with one row replaced. Rows count from 1.
pub fn with_row(mut matrix: Vec<u8>, row: usize, entries: [u8; 8]) -> Vec<u8> {
    matrix[8 * (row - 1)..8 * row].copy_from_slice(&entries);
    matrix
}

/// The entries of a matrix that a key file holds: rows 1 to 7, and the last entry of row 8.
pub fn entries(matrix: &[u8]) -> Vec<u8> {
    [&matrix[..56], &matrix[63..]].concat()
}

/// The word file of `letters` letters b7, an even number.
pub fn sevens(letters: u16) -> Vec<u8> {
    let mut word = letters.to_be_bytes().to_vec();
    word.resize(2 + usize::from(letters) / 2, 0x66);
    word
}

/// The matrix that a digest of zero bytes reaches from the start under document 01's T-values: columns 6 to 8 of row 7.
/// All other entries are those of the identity matrix.
///
/// b7 has 6, 6, 1, and b7 b7 has 6 + 7 × 6 = 20, 7 × 6 = 18, 1 + 6 = 7. So 2 k letters have 20 × s, 18^k, 7 × s, where
/// s = 1 + 18 + .. + 18^(k - 1) = (18^k + 1)/19.
///
/// 32 zero bytes are b7, 128 times. 18^64 = 18^2 = 9, since t^31 = 1. So s = 1 + 18 = 19, 20 × 19 = 30, 7 × 19 = 22.
///
/// 64 zero bytes are b7, 256 times. 18^128 is the square root of 18, since t^256 = t. The root is 129 = x^7 + 1, since
/// its square is x^14 + 1 = 19 + 1 = 18. So s = 128/19 = x^7/x^14 = 1/x^7 = 27, 20 × 27 = 193, 7 × 27 = 65.
pub fn zeros_reach(field: Field) -> [u8; 3] {
    match field {
        Field::Gf32 => [30, 9, 22],
        Field::Gf256 => [193, 129, 65],
    }
}

/// All fixed cases.
fn cases() -> Vec<Fixed> {
    ALL.into_iter().flat_map(|operation| operation.fixed()).collect()
}

/// Checks all fixed cases with the library and with the reference. Returns the number of cases, or an account of the
/// first failure. Each operation must have a case over each of its fields.
pub fn check() -> Result<usize, String> {
    let cases = cases();
    for case in &cases {
        let library = case.account("library", case.input.outcome(By::Library));
        if let Some(account) =
            library.or_else(|| case.account("reference", case.input.outcome(By::Reference)))
        {
            return Err(account);
        }
    }
    let seen: BTreeSet<(&str, Field)> =
        cases.iter().map(|case| (case.input.facts().name, case.input.field())).collect();
    match over_fields().find(|(operation, field)| !seen.contains(&(operation.facts().name, *field))) {
        Some((operation, field)) => {
            Err(format!("walnut_{} has no fixed case\n", operation.facts().name_over(field)))
        }
        None => Ok(cases.len()),
    }
}

#[cfg(test)]
mod tests {
    use super::*;

    /// Checks the reference alone, without the library.
    #[test]
    fn reference_holds_to_all_cases() {
        let accounts: Vec<String> = cases()
            .iter()
            .filter_map(|case| case.account("reference", case.input.outcome(By::Reference)))
            .collect();
        assert!(accounts.is_empty(), "{}", accounts.concat());
    }
}
