//! The rewriter (document 01, "Moves").
//!
//! A word is a list of letters here. A move needs some letters, starting at its place; its kind says how many. If these
//! letters match the kind, the move replaces them by other letters. An insertion needs no letters and adds two.

use std::ops::Range;

use crate::bits;
use crate::letter::{codes_of, letters_of, Letter};
use crate::questions::{first_no, first_refusal, Question};
use crate::word::{letters, room_answer, word_answer, write_file, Written, MOST_LETTERS};

/// The most moves that a list may have.
pub const MOST_MOVES: usize = 4_096;

/// The bytes of the number of moves, which stands before the places.
const HEAD: usize = 2;

/// The bytes of one move: two for its place, one for its kind.
const MOVE_BYTES: usize = 3;

/// The bits of a place.
const PLACE_BITS: usize = 16;

/// The bits of a kind.
const KIND_BITS: usize = 8;

/// A move of a list: a place and the number of a kind. The place counts from 0 in the word that the moves before have
/// left.
#[derive(Clone, Copy, Debug, PartialEq, Eq)]
pub struct Move {
    pub place: u16,
    pub kind: u8,
}

/// The kinds of moves.
#[derive(Clone, Copy, Debug, PartialEq, Eq)]
pub enum Kind {
    /// 1 removes a letter and the inverse right after it.
    Remove,
    /// 2 swaps two adjacent letters whose generators differ by at least 2.
    Swap,
    /// 3 turns j k j into k j k, where the generators differ by 1 and all three signs agree.
    Turn,
    /// 16 + c inserts the letter of code c and then its inverse.
    Insert(Letter),
}

impl Kind {
    /// The kind with a number: 1, 2, 3, 16 to 22 or 24 to 30. No other number is a kind. (Question 21.)
    pub fn from_number(number: u8) -> Option<Kind> {
        match number {
            1 => Some(Kind::Remove),
            2 => Some(Kind::Swap),
            3 => Some(Kind::Turn),
            16.. => Letter::from_code(number - 16).map(Kind::Insert),
            _ => None,
        }
    }

    /// The number of letters that a move of this kind needs, starting at its place.
    fn needs(self) -> usize {
        match self {
            Kind::Remove | Kind::Swap => 2,
            Kind::Turn => 3,
            Kind::Insert(_) => 0,
        }
    }

    /// The letters that replace the needed ones, or `None` if the needed letters do not match the kind.
    fn replacement(self, needed: &[Letter]) -> Option<Vec<Letter>> {
        match (self, needed) {
            (Kind::Remove, [a, b]) => (*b == a.inverted()).then(Vec::new),
            (Kind::Swap, [a, b]) => (apart(*a, *b) >= 2).then(|| vec![*b, *a]),
            (Kind::Turn, [j, k, l]) => {
                (l == j && apart(*j, *k) == 1 && j.inverse == k.inverse).then(|| vec![*k, *j, *k])
            }
            (Kind::Insert(letter), []) => Some(vec![letter, letter.inverted()]),
            _ => None,
        }
    }
}

/// By how much the generators of two letters differ.
fn apart(a: Letter, b: Letter) -> usize {
    a.generator.abs_diff(b.generator)
}

/// The number of moves that a list of at least two bytes announces.
fn announced(list: &[u8]) -> usize {
    bits::number(&bits::of_bytes(&list[..HEAD])).into()
}

/// The questions of a move list.
const LIST_QUESTIONS: [Question<[u8]>; 3] = [
    (18, |list| list.len() >= HEAD),
    (19, |list| announced(list) <= MOST_MOVES),
    (20, |list| list.len() == HEAD + MOVE_BYTES * announced(list)),
];

/// The answer to a move list's own questions: 18 to 20, or 0.
pub fn list_answer(list: &[u8]) -> u8 {
    first_no(&LIST_QUESTIONS, list)
}

/// The moves of a list whose [`list_answer`] is 0. After the number of moves come all places, then all kinds.
pub fn moves(list: &[u8]) -> Vec<Move> {
    let bits = bits::of_bytes(&list[HEAD..]);
    let (places, kinds) = bits.split_at(PLACE_BITS * announced(list));
    let places = places.chunks_exact(PLACE_BITS).map(bits::number);
    places.zip(bits::numbers(kinds, KIND_BITS)).map(|(place, kind)| Move { place, kind }).collect()
}

/// A move, and the word on which it is tried.
struct Attempt<'a> {
    word: &'a [Letter],
    step: Move,
}

impl Attempt<'_> {
    fn kind(&self) -> Option<Kind> {
        Kind::from_number(self.step.kind)
    }

    /// The range of the letters that the move needs, or `None` if the word does not have them. An insertion needs no
    /// letters, so its place may be the word's length, but not more.
    fn range(&self) -> Option<Range<usize>> {
        let place = usize::from(self.step.place);
        let end = place + self.kind()?.needs();
        (end <= self.word.len()).then_some(place..end)
    }

    /// The letters that replace the needed ones, or `None` if the needed letters do not match the kind.
    fn replacement(&self) -> Option<Vec<Letter>> {
        self.kind()?.replacement(&self.word[self.range()?])
    }

    /// The length of the word after the move.
    fn length_after(&self) -> Option<usize> {
        Some(self.word.len() - self.range()?.len() + self.replacement()?.len())
    }
}

/// The questions of one move.
fn move_questions<'a>() -> [Question<Attempt<'a>>; 4] {
    [
        (21, |attempt| attempt.kind().is_some()),
        (22, |attempt| attempt.range().is_some()),
        (23, |attempt| attempt.replacement().is_some()),
        (24, |attempt| attempt.length_after().is_some_and(|length| length <= MOST_LETTERS)),
    ]
}

/// The answer to one move's questions on a word: 21 to 24, or 0.
pub fn move_answer(word: &[Letter], step: Move) -> u8 {
    first_no(&move_questions(), &Attempt { word, step })
}

/// The word after one move, or the move's answer if it is refused.
pub fn moved(mut word: Vec<Letter>, step: Move) -> Result<Vec<Letter>, u8> {
    let attempt = Attempt { word: &word, step };
    match (move_answer(&word, step), attempt.range(), attempt.replacement()) {
        (0, Some(range), Some(replacement)) => {
            word.splice(range, replacement);
            Ok(word)
        }
        (answer, ..) => Err(answer),
    }
}

/// The word after all moves, or the answer of the first move that is refused. Each move works on the word that the move
/// before it left.
pub fn rewritten(word: &[Letter], moves: &[Move]) -> Result<Vec<Letter>, u8> {
    moves.iter().try_fold(word.to_vec(), |word, step| moved(word, *step))
}

/// Rewrites a word by a list of moves. Answers: 15, the word's 9 to 13, the list's 18 to 20, then for each move 21 to
/// 24. If one move is refused, nothing is written.
pub fn rewrite(word: &[u8], list: &[u8], out: &mut [u8]) -> Written {
    let result = match first_refusal(&[room_answer(out), word_answer(word), list_answer(list)]) {
        0 => rewritten(&letters_of(&letters(word)), &moves(list)),
        answer => Err(answer),
    };
    match result {
        Ok(word) => write_file(&codes_of(&word), out),
        Err(answer) => Written::refusal(answer),
    }
}
