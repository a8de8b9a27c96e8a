//! Free reduction (document 01, "Moves"; source 000, section 5.1).

use crate::letter::Letter;
use crate::questions::first_refusal;
use crate::word::{letters, room_answer, word_answer, write_file, Written};

/// Is the second letter the inverse of the first? Moves of kind 1 remove two such neighbours.
pub fn cancels(first: u8, second: u8) -> bool {
    Letter::from_code(first).is_some_and(|letter| Letter::from_code(second) == Some(letter.inverted()))
}

/// The place of the first letter that is followed by its inverse, if there is one.
fn first_cancelling(codes: &[u8]) -> Option<usize> {
    codes.windows(2).position(|two| cancels(two[0], two[1]))
}

/// The word after moves of kind 1, repeated until no two neighbours cancel. Every code must be a letter.
pub fn freely_reduced(codes: &[u8]) -> Vec<u8> {
    let mut codes = codes.to_vec();
    while let Some(place) = first_cancelling(&codes) {
        codes.drain(place..place + 2);
    }
    codes
}

/// Free reduction of a word file. Answers: 15, then the word's 9 to 13.
pub fn free_reduce(word: &[u8], out: &mut [u8]) -> Written {
    match first_refusal(&[room_answer(out), word_answer(word)]) {
        0 => write_file(&freely_reduced(&letters(word)), out),
        answer => Written::refusal(answer),
    }
}
