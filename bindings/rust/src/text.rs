//! Letters as the text `b1 b2^-1 ..`.

use alloc::{string::String, vec::Vec};
use core::error::Error;
use core::fmt;
use core::str::FromStr;

use crate::Letter;

/// A text that names no letter. The letters are b1 to b7 and b1^-1 to b7^-1.
#[derive(Clone, Debug, PartialEq, Eq)]
pub struct NoLetter(pub String);

impl fmt::Display for NoLetter {
    fn fmt(&self, to: &mut fmt::Formatter<'_>) -> fmt::Result {
        write!(to, "{:?} is no letter: letters are b1 to b7 and b1^-1 to b7^-1", self.0)
    }
}

impl Error for NoLetter {}

impl FromStr for Letter {
    type Err = NoLetter;

    fn from_str(text: &str) -> Result<Letter, NoLetter> {
        Letter::of_text(text).ok_or_else(|| NoLetter(String::from(text)))
    }
}

/// The codes of letters as text, with spaces or line ends between them: what [`write_word`](crate::write_word) takes.
pub fn codes(text: &str) -> Result<Vec<u8>, NoLetter> {
    text.split_whitespace().map(|letter| letter.parse().map(Letter::code)).collect()
}
