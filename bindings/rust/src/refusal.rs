//! Answers other than 0.

use core::error::Error;
use core::fmt;

/// What failed, for each number.
fn text(number: u8) -> &'static str {
    match number {
        // answers.txt: begin; tools/answers writes these lines
        1 => "the key file has neither 83 nor 128 bytes",
        2 => "the key is not for eight strands",
        3 => "the key names the wrong field: 83 bytes need q = 32, 128 bytes need q = 256",
        4 => "a T-value is zero, or the reciprocal of zero was asked for",
        5 => "the first two T-values are not both 1",
        6 => "the list of labels is not 0 to 7, each once, or a pair's positions do not match its list",
        7 => "the key's filler bits are not all zero",
        8 => "the digest has the wrong length: an 83-byte key needs 32 bytes, a 128-byte key 64",
        9 => "the word has fewer than 2 bytes",
        10 => "the word's number of letters is over 10,000",
        11 => "the word's length does not match its number of letters",
        12 => "a code is not a letter",
        13 => "the last half byte of an odd word is not 0",
        14 => "the matrices differ: the word is not a signature of this digest under this key",
        15 => "the output is too small: a word needs 5,002 bytes, a stored form 5,006",
        16 => "the output is too small: a key needs 83 bytes, or 128 in the larger field",
        17 => "a T-value, matrix entry or operand is outside the field (0 to 31, or 0 to 255)",
        18 => "the move list has fewer than 2 bytes",
        19 => "the move list states more than 4,096 moves",
        20 => "the move list's length is not 2 + 3 times its number of moves",
        21 => "a move's kind is unknown: kinds are 1, 2, 3, 16 to 22 and 24 to 30",
        22 => "a move, or a pair to replace, reaches past the end of the word",
        23 => "the letters at the move's place do not match this kind of move",
        24 => "an insertion would leave more than 10,000 letters",
        25 => "the list to cloak for is not 8 bytes, 0 to 7 each once",
        26 => "a matrix of the key, or of a half, has no inverse",
        27 => "a label is over 7, or both labels are equal",
        28 => "the stored form has fewer than 6 bytes, or its sizes disagree with its letters or length",
        29 => "a generator of the stored form is 7, or its filler bits are not all zero",
        30 => "the publisher is not 1 or 2, or the key number is over 3",
        31 => "the publisher holds no key under this number",
        32 => "a step that takes a handle out would leave more than 10,000 letters",
        33 => "the parts are empty, hold a zero or do not sum to 7",
        34 => "the new word would have more than 10,000 letters",
        35 => "the length is over 12, or the list is not four labels, 0 to 3 each once",
        36 => "the slip has more letters than this round has left for its publisher",
        // answers.txt: end
        _ => "an answer that this binding does not know",
    }
}

/// The number of the first question that an input failed. Each number that this binding knows has a name below.
#[derive(Clone, Copy, PartialEq, Eq, PartialOrd, Ord, Hash)]
pub struct Refusal(u8);

impl Refusal {
    // answers.txt: begin; tools/answers writes these lines
    /// The key file has neither 83 nor 128 bytes.
    pub const KEY_LENGTH: Refusal = Refusal(1);
    /// The key is not for eight strands.
    pub const STRANDS: Refusal = Refusal(2);
    /// The key names the wrong field: 83 bytes need q = 32, 128 bytes need q = 256.
    pub const KEY_FIELD: Refusal = Refusal(3);
    /// A T-value is zero, or the reciprocal of zero was asked for.
    pub const ZERO: Refusal = Refusal(4);
    /// The first two T-values are not both 1.
    pub const FIRST_T_VALUES: Refusal = Refusal(5);
    /// The list of labels is not 0 to 7, each once, or a pair's positions do not match its list.
    pub const LABELS: Refusal = Refusal(6);
    /// The key's filler bits are not all zero.
    pub const KEY_FILLER: Refusal = Refusal(7);
    /// The digest has the wrong length: an 83-byte key needs 32 bytes, a 128-byte key 64.
    pub const DIGEST_LENGTH: Refusal = Refusal(8);
    /// The word has fewer than 2 bytes.
    pub const WORD_SHORT: Refusal = Refusal(9);
    /// The word's number of letters is over 10,000.
    pub const TOO_MANY_LETTERS: Refusal = Refusal(10);
    /// The word's length does not match its number of letters.
    pub const WORD_LENGTH: Refusal = Refusal(11);
    /// A code is not a letter.
    pub const NO_LETTER: Refusal = Refusal(12);
    /// The last half byte of an odd word is not 0.
    pub const WORD_FILLER: Refusal = Refusal(13);
    /// The matrices differ: the word is not a signature of this digest under this key.
    pub const MATRICES_DIFFER: Refusal = Refusal(14);
    /// The output is too small: a word needs 5,002 bytes, a stored form 5,006.
    pub const OUTPUT_SHORT: Refusal = Refusal(15);
    /// The output is too small: a key needs 83 bytes, or 128 in the larger field.
    pub const KEY_OUTPUT_SHORT: Refusal = Refusal(16);
    /// A T-value, matrix entry or operand is outside the field (0 to 31, or 0 to 255).
    pub const NO_ELEMENT: Refusal = Refusal(17);
    /// The move list has fewer than 2 bytes.
    pub const MOVES_SHORT: Refusal = Refusal(18);
    /// The move list states more than 4,096 moves.
    pub const TOO_MANY_MOVES: Refusal = Refusal(19);
    /// The move list's length is not 2 + 3 times its number of moves.
    pub const MOVES_LENGTH: Refusal = Refusal(20);
    /// A move's kind is unknown: kinds are 1, 2, 3, 16 to 22 and 24 to 30.
    pub const NO_KIND: Refusal = Refusal(21);
    /// A move, or a pair to replace, reaches past the end of the word.
    pub const PAST_THE_END: Refusal = Refusal(22);
    /// The letters at the move's place do not match this kind of move.
    pub const NOT_THE_SHAPE: Refusal = Refusal(23);
    /// An insertion would leave more than 10,000 letters.
    pub const WORD_FULL: Refusal = Refusal(24);
    /// The list to cloak for is not 8 bytes, 0 to 7 each once.
    pub const LIST: Refusal = Refusal(25);
    /// A matrix of the key, or of a half, has no inverse.
    pub const NO_INVERSE: Refusal = Refusal(26);
    /// A label is over 7, or both labels are equal.
    pub const TWO_LABELS: Refusal = Refusal(27);
    /// The stored form has fewer than 6 bytes, or its sizes disagree with its letters or length.
    pub const STORED_SIZES: Refusal = Refusal(28);
    /// A generator of the stored form is 7, or its filler bits are not all zero.
    pub const STORED_BITS: Refusal = Refusal(29);
    /// The publisher is not 1 or 2, or the key number is over 3.
    pub const NO_SUCH_NUMBER: Refusal = Refusal(30);
    /// The publisher holds no key under this number.
    pub const NO_KEY_HELD: Refusal = Refusal(31);
    /// A step that takes a handle out would leave more than 10,000 letters.
    pub const HANDLES_FULL: Refusal = Refusal(32);
    /// The parts are empty, hold a zero or do not sum to 7.
    pub const PARTS: Refusal = Refusal(33);
    /// The new word would have more than 10,000 letters.
    pub const NEW_WORD_FULL: Refusal = Refusal(34);
    /// The length is over 12, or the list is not four labels, 0 to 3 each once.
    pub const LENGTH_OR_LIST: Refusal = Refusal(35);
    /// The slip has more letters than this round has left for its publisher.
    pub const ROUND_FULL: Refusal = Refusal(36);
    // answers.txt: end

    /// The number; never 0.
    pub const fn number(self) -> u8 {
        self.0
    }

    /// What failed.
    pub fn text(self) -> &'static str {
        text(self.0)
    }
}

/// The number and what failed, so that an `unwrap` says it too.
impl fmt::Debug for Refusal {
    fn fmt(&self, to: &mut fmt::Formatter<'_>) -> fmt::Result {
        to.debug_tuple("Refusal").field(&self.0).field(&self.text()).finish()
    }
}

/// The number and what failed.
impl fmt::Display for Refusal {
    fn fmt(&self, to: &mut fmt::Formatter<'_>) -> fmt::Result {
        write!(to, "{}: {}", self.0, self.text())
    }
}

impl Error for Refusal {}

/// The value on the answer 0, the refusal otherwise.
pub(crate) fn granted<T>(answer: u8, value: T) -> Result<T, Refusal> {
    if answer == 0 {
        Ok(value)
    } else {
        Err(Refusal(answer))
    }
}

#[cfg(test)]
mod tests {
    use super::*;
    use std::string::ToString;

    #[test]
    fn an_unknown_number_is_a_refusal_too() {
        let refusal = granted(255, ()).unwrap_err();
        assert_eq!(refusal.number(), 255);
        assert_eq!(refusal.to_string(), "255: an answer that this binding does not know");
    }

    #[test]
    fn zero_is_no_refusal() {
        assert_eq!(granted(0, "value"), Ok("value"));
    }
}
