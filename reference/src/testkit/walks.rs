//! Exponent sums, and move lists that the rewriter accepts.

use crate::letter::{letters_of, Letter};
use crate::rewrite::{move_answer, moved, Move};
use crate::testkit::Random;

/// The number of places that a walk tests for one kind of move before it tries another kind.
const LOOKS: usize = 1_000;

/// The number of positive letters minus the number of inverse letters.
pub fn exponent_sum(codes: &[u8]) -> i64 {
    letters_of(codes).into_iter().map(|letter| if letter.inverse { -1 } else { 1 }).sum()
}

/// The file of a move list: the number of moves, then all places, then all kinds.
pub fn move_list(moves: &[Move]) -> Vec<u8> {
    let number = u16::try_from(moves.len()).expect("a list's number has two bytes");
    let places = moves.iter().flat_map(|step| step.place.to_be_bytes());
    let kinds = moves.iter().map(|step| step.kind);
    number.to_be_bytes().into_iter().chain(places).chain(kinds).collect()
}

/// Moves that are possible one after another, and the word after the last move.
#[derive(Clone, Debug)]
pub struct Walk {
    pub moves: Vec<Move>,
    pub word: Vec<Letter>,
}

impl Random {
    /// A move of this kind at the first place where it is possible. The search starts at a random place, continues at
    /// the word's start after its end, and tests at most [`LOOKS`] places.
    fn place_for(&mut self, word: &[Letter], kind: u8) -> Option<Move> {
        let from = self.within(0, word.len());
        let places = (from..=word.len()).chain(0..from).take(LOOKS);
        places.map(|place| Move { place: place as u16, kind }).find(|step| move_answer(word, *step) == 0)
    }

    /// A random move that is possible on the word. The result is `None` if the search finds no move.
    pub fn possible_move(&mut self, word: &[Letter]) -> Option<Move> {
        let insertion = 16 + self.letter();
        let kinds = self.shuffled([1, 2, 3, insertion]);
        kinds.into_iter().find_map(|kind| self.place_for(word, kind))
    }

    /// A walk of `moves` random moves from a word. Each move is possible on the word that the moves before it left. The
    /// walk is shorter if the search finds no move.
    pub fn walk(&mut self, codes: &[u8], moves: usize) -> Walk {
        let mut walk = Walk { moves: Vec::new(), word: letters_of(codes) };
        while walk.moves.len() < moves {
            let Some(step) = self.possible_move(&walk.word) else { break };
            walk.word = moved(walk.word, step).expect("the move is possible");
            walk.moves.push(step);
        }
        walk
    }
}
