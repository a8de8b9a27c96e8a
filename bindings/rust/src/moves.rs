//! Move lists, move by move.

use alloc::vec::Vec;

use crate::{rewrite, Letter, Refusal, WORD_BYTES};

/// A move: its place, counted from 0 in the word that the moves before it left, and its kind.
#[derive(Clone, Copy, Debug, PartialEq, Eq, Hash)]
pub struct Move {
    pub place: u16,
    pub kind: u8,
}

/// A move list, built move by move. Whether a word has the letters that a move needs is for [`rewrite`] to say.
///
/// ```no_run
/// # let (word, mut out) = ([0, 5, 0x01, 0x03, 0xB0], [0; walnut::WORD_BYTES]);
/// let moves = walnut::Moves::new().turn(0).remove(3);
/// walnut::rewrite(&word, &moves.file(), &mut out)?;
/// # Ok::<(), walnut::Refusal>(())
/// ```
#[derive(Clone, Debug, Default, PartialEq, Eq)]
pub struct Moves(Vec<Move>);

impl Moves {
    /// No moves.
    pub fn new() -> Moves {
        Moves::default()
    }

    /// Removes the letter at a place and the inverse right after it.
    pub fn remove(self, place: u16) -> Moves {
        self.then(Move { place, kind: 1 })
    }

    /// Swaps the letter at a place and the next one, whose generators differ by at least 2.
    pub fn swap(self, place: u16) -> Moves {
        self.then(Move { place, kind: 2 })
    }

    /// Turns j k j at a place into k j k, where the generators differ by 1 and all three signs agree.
    pub fn turn(self, place: u16) -> Moves {
        self.then(Move { place, kind: 3 })
    }

    /// Inserts a letter, and then its inverse, before a place.
    pub fn insert(self, place: u16, letter: Letter) -> Moves {
        self.then(Move { place, kind: 16 + letter.code() })
    }

    /// One more move, of any kind.
    pub fn then(mut self, one: Move) -> Moves {
        self.0.push(one);
        self
    }

    /// The moves, first to last.
    pub fn list(&self) -> &[Move] {
        &self.0
    }

    /// The file: the number of moves, then all places, then all kinds. If there are more moves than two bytes can
    /// count, the file states 65,535 moves. So it is refused like any list of more than [`MOVES`](crate::MOVES).
    pub fn file(&self) -> Vec<u8> {
        let number = u16::try_from(self.0.len()).unwrap_or(u16::MAX);
        let mut file = number.to_be_bytes().to_vec();
        file.extend(self.0.iter().flat_map(|one| one.place.to_be_bytes()));
        file.extend(self.0.iter().map(|one| one.kind));
        file
    }

    /// The moves of a file, of whatever kinds; the refusals are 18, 19 and 20.
    pub fn read(file: &[u8]) -> Result<Moves, Refusal> {
        // the rewriter asks these questions before it looks at a move
        match rewrite(&[0, 0], file, &mut [0; WORD_BYTES]) {
            Err(refusal) if refusal <= Refusal::MOVES_LENGTH => return Err(refusal),
            _ => {}
        }
        let (places, kinds) = file[2..].split_at((file.len() - 2) / 3 * 2);
        let place = |bytes: &[u8]| u16::from_be_bytes([bytes[0], bytes[1]]);
        Ok(places
            .chunks_exact(2)
            .zip(kinds)
            .map(|(bytes, &kind)| Move { place: place(bytes), kind })
            .collect())
    }
}

impl FromIterator<Move> for Moves {
    fn from_iter<I: IntoIterator<Item = Move>>(moves: I) -> Moves {
        Moves(moves.into_iter().collect())
    }
}
