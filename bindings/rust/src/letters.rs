//! Letters, and those of a word file.

use core::fmt;

use crate::{read_word, Refusal};

/// A letter: a generator b1 to b7, or the inverse of one.
#[derive(Clone, Copy, Debug, PartialEq, Eq, Hash)]
pub struct Letter(u8);

impl Letter {
    /// The letter with a code: 0 to 6 are b1 to b7, 8 to 14 their inverses, and no other number is a code.
    pub const fn of_code(code: u8) -> Option<Letter> {
        if code < 15 && code != 7 {
            Some(Letter(code))
        } else {
            None
        }
    }

    /// The letter that a text names: `b1` to `b7`, or `b1^-1` to `b7^-1`.
    pub fn of_text(text: &str) -> Option<Letter> {
        let (name, inverse) = text.strip_suffix("^-1").map_or((text, 0), |name| (name, 8));
        match name.as_bytes() {
            [b'b', digit @ b'1'..=b'7'] => Some(Letter(digit - b'1' + inverse)),
            _ => None,
        }
    }

    /// Its code.
    pub const fn code(self) -> u8 {
        self.0
    }

    /// The number of its generator, 1 to 7.
    pub const fn generator(self) -> u8 {
        self.0 % 8 + 1
    }

    /// Is it an inverse?
    pub const fn is_inverse(self) -> bool {
        self.0 >= 8
    }

    /// The letter that it cancels with.
    pub const fn inverse(self) -> Letter {
        Letter(self.0 ^ 8)
    }
}

/// As text: `b3`, or `b3^-1` for an inverse.
impl fmt::Display for Letter {
    fn fmt(&self, to: &mut fmt::Formatter<'_>) -> fmt::Result {
        write!(to, "b{}{}", self.generator(), if self.is_inverse() { "^-1" } else { "" })
    }
}

/// The letters of a word file, first to last.
#[derive(Clone, Debug)]
pub struct Letters<'a> {
    /// Two codes to a byte, the earlier in the high half.
    packed: &'a [u8],
    next: usize,
    letters: usize,
}

/// Reads a word file: its letters.
pub fn letters(file: &[u8]) -> Result<Letters<'_>, Refusal> {
    let letters = read_word(file)?;
    Ok(Letters { packed: &file[2..], next: 0, letters })
}

impl Iterator for Letters<'_> {
    type Item = Letter;

    fn next(&mut self) -> Option<Letter> {
        if self.next == self.letters {
            return None;
        }
        let byte = self.packed[self.next / 2];
        let code = if self.next % 2 == 0 { byte >> 4 } else { byte & 15 };
        self.next += 1;
        Some(Letter(code))
    }

    fn size_hint(&self) -> (usize, Option<usize>) {
        let left = self.letters - self.next;
        (left, Some(left))
    }
}

impl ExactSizeIterator for Letters<'_> {}
