//! Letters: the Artin generators b1 to b7 and their inverses (document 01, "Letters and pairs").

/// A letter: a generator's number, 1 to 7, and whether it is the inverse.
#[derive(Clone, Copy, Debug, PartialEq, Eq)]
pub struct Letter {
    pub generator: usize,
    pub inverse: bool,
}

impl Letter {
    /// The letter of a code of four bits. The high bit is 1 for an inverse. The low three bits are the generator's
    /// number minus one. The codes 7, 15 and all above 15 are not letters.
    pub fn from_code(code: u8) -> Option<Letter> {
        let generator = usize::from(code % 8) + 1;
        let inverse = code / 8 == 1;
        (code < 16 && generator <= 7).then_some(Letter { generator, inverse })
    }

    pub fn code(self) -> u8 {
        let sign = if self.inverse { 8 } else { 0 };
        sign + (self.generator as u8 - 1)
    }

    /// The inverse of the letter.
    pub fn inverted(self) -> Letter {
        Letter { inverse: !self.inverse, ..self }
    }
}

/// Is the code a letter? (Question 12.)
pub fn is_letter(code: u8) -> bool {
    Letter::from_code(code).is_some()
}

/// The letters with these codes. Every code must be a letter.
pub fn letters_of(codes: &[u8]) -> Vec<Letter> {
    codes.iter().filter_map(|code| Letter::from_code(*code)).collect()
}

/// The codes of these letters.
pub fn codes_of(letters: &[Letter]) -> Vec<u8> {
    letters.iter().map(|letter| letter.code()).collect()
}
