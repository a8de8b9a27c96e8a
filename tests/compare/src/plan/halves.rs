//! Compares the whole verdict with its two halves.

use reference::Field;

use crate::case::Parts;
use crate::make::Size;
use crate::operation::Operation;
use crate::operations::first_half::FirstHalf;
use crate::operations::second_half::SecondHalf;
use crate::operations::verify::Verify;
use crate::plan::{in_pairs, Checked, Failure, Run};

impl Run {
    /// Slips without faults, with each fault of the verdict, and with each two faults.
    pub fn halves(&mut self, field: Field) -> Checked {
        for faults in in_pairs(&Verify.facts().questions_over(field)) {
            let case = self.maker.with_faults(&Verify, field, &faults, Size::Short);
            let Some((slip, expected)) = case else { continue };
            self.whole_and_halves(slip.parts, Some(expected))?;
        }
        Ok(())
    }

    /// Judges a slip, which is a key, a digest and a word, whole and by halves. If the first half refuses, the verdict
    /// must have the first half's answer. Otherwise the verdict must have the answer of the second half, which gets the
    /// first half's result and the word.
    pub fn whole_and_halves(&mut self, slip: Parts, expected: Option<u8>) -> Checked {
        let input = self.maker.input(&Verify, Field::Gf32, slip.clone());
        let whole = self.input(input.clone(), expected)?.answer;
        let first = self.parts(&FirstHalf, slip[..2].to_vec(), None)?;
        let by_halves = if first.answer == 0 {
            let (field, half) = (Field::BOTH[first.numbers[0] as usize], first.bytes);
            let parts = [&half[..8], &half[8..72], &half[72..88], &half[88..], &slip[2]].map(<[u8]>::to_vec);
            self.over(&SecondHalf, field, parts.to_vec(), None)?.answer
        } else {
            first.answer
        };
        if by_halves != whole {
            let account = format!("the verdict differs from its halves, which answer {by_halves}");
            return Err(Box::new(Failure::Unexpected(input, account)));
        }
        Ok(())
    }
}
