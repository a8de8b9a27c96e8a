//! Handle reduction, and the shorter of two words (document 02, section 9).
//!
//! Each step looks for all handles of the whole word and removes the handle that ends earliest. A step keeps only the
//! word for the next step.

use crate::letter::{codes_of, letters_of, Letter};
use crate::questions::first_refusal;
use crate::word::{letters, room_answer, word_answer, write_file, Written, MOST_LETTERS};

/// The result of handle reduction: the answer, the number of bytes written, and whether the new word has a handle.
#[derive(Clone, Copy, Debug, PartialEq, Eq)]
pub struct Handles {
    pub answer: u8,
    pub bytes: usize,
    pub left: bool,
}

/// The places of a handle's two ends.
#[derive(Clone, Copy, Debug, PartialEq, Eq)]
pub struct Handle {
    pub first: usize,
    pub last: usize,
}

/// The handle that begins at a place, if there is one. No letter between its ends may be of the generators b_i and
/// b_(i-1), where b_i is the generator of its ends. So only the next letter of these two generators can end it.
fn handle_from(word: &[Letter], first: usize) -> Option<Handle> {
    let end = word[first];
    let stops = |letter: &Letter| [letter.generator, letter.generator + 1].contains(&end.generator);
    let last = first + 1 + word[first + 1..].iter().position(stops)?;
    (word[last] == end.inverted()).then_some(Handle { first, last })
}

/// All handles of a word, in the order in which they begin.
pub fn all_handles(word: &[Letter]) -> impl Iterator<Item = Handle> + '_ {
    (0..word.len()).filter_map(|first| handle_from(word, first))
}

/// The letters that replace a letter between the ends of a handle. Let the handle begin with `end`, which is b_i of
/// sign e. Three letters replace b_(i+1) of sign d: b_(i+1) of sign -e, b_i of sign d, b_(i+1) of sign e. Every other
/// letter stays.
fn replaced(end: Letter, letter: Letter) -> Vec<Letter> {
    let above = Letter { generator: end.generator + 1, ..end };
    if letter.generator == above.generator {
        vec![above.inverted(), Letter { inverse: letter.inverse, ..end }, above]
    } else {
        vec![letter]
    }
}

/// The word after one step, which removes this handle.
fn without(word: &[Letter], handle: Handle) -> Vec<Letter> {
    let between = &word[handle.first + 1..handle.last];
    let middle: Vec<Letter> =
        between.iter().flat_map(|letter| replaced(word[handle.first], *letter)).collect();
    [&word[..handle.first], &middle, &word[handle.last + 1..]].concat()
}

/// The word after at most `limit` steps. The result is `None` if a step would leave more than 10,000 letters.
pub fn after_steps(codes: &[u8], limit: u16) -> Option<Vec<u8>> {
    let mut word = letters_of(codes);
    for _ in 0..limit {
        let Some(handle) = all_handles(&word).min_by_key(|handle| handle.last) else { break };
        word = without(&word, handle);
        if word.len() > MOST_LETTERS {
            return None;
        }
    }
    Some(codes_of(&word))
}

/// Removes handles from a word file, in at most `limit` steps. Answers: 15, the word's 9 to 13, then 32.
pub fn handle_reduce(word: &[u8], limit: u16, out: &mut [u8]) -> Handles {
    let refused = |answer| Handles { answer, bytes: 0, left: false };
    match first_refusal(&[room_answer(out), word_answer(word)]) {
        0 => after_steps(&letters(word), limit).map_or(refused(32), |codes| {
            let Written { answer, bytes } = write_file(&codes, out);
            Handles { answer, bytes, left: all_handles(&letters_of(&codes)).next().is_some() }
        }),
        answer => refused(answer),
    }
}

/// The answer, and which of two files is the shorter: 1 for the first, 2 for the second, 0 on a refusal.
#[derive(Clone, Copy, Debug, PartialEq, Eq)]
pub struct Choice {
    pub answer: u8,
    pub which: u8,
}

/// Says which of two word files has fewer bytes. On a tie it is the first. Answers: 9 to 13 of the first, then 9 to 13
/// of the second.
pub fn shorter(first: &[u8], second: &[u8]) -> Choice {
    match first_refusal(&[word_answer(first), word_answer(second)]) {
        0 if second.len() < first.len() => Choice { answer: 0, which: 2 },
        0 => Choice { answer: 0, which: 1 },
        answer => Choice { answer, which: 0 },
    }
}
