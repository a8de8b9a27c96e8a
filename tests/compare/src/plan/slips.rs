//! Takes accepted slips through several operations.

use reference::testkit::{move_list, Slip};
use reference::Field;

use crate::case::{Parts, GUARD};
use crate::operation::Op;
use crate::operations::free_reduce::FreeReduce;
use crate::operations::rewrite::Rewrite;
use crate::operations::verify::Verify;
use crate::plan::{Checked, Run};

impl Run {
    /// Accepted slips with words of each number of letters up to 66, which are four times eight bytes and one byte
    /// more. Each slip is judged over each field, and its word is freely reduced, and rewritten by no moves.
    pub fn every_number_of_letters(&mut self) -> Checked {
        for letters in 0..=66 {
            let codes = self.maker.random.tangled_word(letters);
            for field in Field::BOTH {
                let slip = self.maker.slip(field, &codes);
                self.judged(&slip, slip.word.clone())?;
                self.word_from(&FreeReduce, vec![slip.word.clone()])?;
                self.word_from(&Rewrite, vec![slip.word, move_list(&[])])?;
            }
        }
        Ok(())
    }

    /// Judges an accepted slip as it is, then with its word rewritten by accepted moves, and with each of these two
    /// words freely reduced. Then judges it with the digest cut or lengthened to the other field's size, and with one
    /// part damaged. Every tenth slip has 500 letters, every eightieth 9,990.
    pub fn slip(&mut self, field: Field, place: usize) -> Checked {
        let (letters, moves) = match place {
            _ if place % 80 == 79 => (9_990, 2_000),
            _ if place % 10 == 9 => (500, 400),
            _ => (self.maker.random.within(0, 40), self.maker.random.within(0, 40)),
        };
        let codes = self.maker.random.tangled_word(letters);
        let slip = self.maker.slip(field, &codes);
        self.judged(&slip, slip.word.clone())?;
        let list = move_list(&self.maker.random.walk(&codes, moves).moves);
        let rewritten = self.word_from(&Rewrite, vec![slip.word.clone(), list])?;
        self.judged(&slip, rewritten.clone())?;
        for word in [slip.word.clone(), rewritten] {
            let reduced = self.word_from(&FreeReduce, vec![word])?;
            self.judged(&slip, reduced)?;
        }
        let mut other = slip.digest.clone();
        other.resize(96 - slip.digest.len(), 0);
        self.whole_and_halves(vec![slip.key.clone(), other, slip.word.clone()], Some(8))?;
        let whole = self.maker.input(&Verify, field, vec![slip.key, slip.digest, slip.word]);
        let damaged = self.maker.damaged(whole);
        self.whole_and_halves(damaged.parts, None)
    }

    /// Checks that the slip is accepted with this word in place of its own, whole and by halves.
    fn judged(&mut self, slip: &Slip, word: Vec<u8>) -> Checked {
        self.whole_and_halves(vec![slip.key.clone(), slip.digest.clone(), word], Some(0))
    }

    /// The word file that an operation writes. The operation must accept the parts.
    pub fn word_from(&mut self, operation: Op, parts: Parts) -> Checked<Vec<u8>> {
        let outcome = self.parts(operation, parts, Some(0))?;
        Ok(outcome.bytes[GUARD..GUARD + outcome.numbers[0] as usize].to_vec())
    }
}
