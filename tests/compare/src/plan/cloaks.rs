//! Cloaks anywhere (document 02, section 12). At a place in a slip's word, inserts a word that cloaks for the list
//! reached there. Repeats the insertion in the new word, with accepted moves between insertions. The slips are accepted
//! or refused, and each verdict must stay. Also inserts words that cloak for another list, which change verdicts.

use std::collections::BTreeMap;

use reference::pair::{list_reached, Labels, TValues};
use reference::testkit::{accepted_slip, inserted, move_list, Slip};
use reference::word::{word_file, MOST_LETTERS};
use reference::{letters, Field, Pair};

use crate::case::Parts;
use crate::operation::Op;
use crate::operations::cloaks::Cloaks;
use crate::operations::rewrite::Rewrite;
use crate::operations::verify::{flip_second_matrix, Verify};
use crate::operations::write_word::WriteWord;
use crate::plan::{Checked, Failure, Run};

/// The number of slips over each field. Every second slip is refused.
const SLIPS: usize = 1_200;

/// The most steps for one slip. A step is an insertion or a move list.
const STEPS: usize = 4;

/// The number of slips over each field that an insertion fills to 10,000 letters. As many other slips get 10,001
/// letters.
const LIMITS: usize = 6;

/// The most letters before the power in a short cloaking word, and in a cloaking word that fills a word to the limit.
/// `unit_cloak` can add up to six letters.
const SIDE: usize = 12;
const LONG_SIDE: usize = 2_000;

/// The accounts of failures: what must hold.
const CLOAKS: &str = "the word was made to cloak for the list";
const STAYS: &str =
    "the verdict must stay after insertions of words that cloak for the list reached, and after accepted moves";
const EXACTLY: &str = "the verdict must stay exactly if the inserted word cloaks for the list reached";

/// The numbers of tests over one field.
#[derive(Default)]
struct Counts {
    slips: usize,
    /// Slips with the verdict 14.
    refused: usize,
    insertions: usize,
    move_lists: usize,
    /// Insertions after which the word has 10,000 or 10,001 letters.
    limits: usize,
    /// Words that cloak for another list than the one reached, and the number of verdicts that they changed.
    elsewhere: usize,
    changed: usize,
}

impl Counts {
    fn summary(&self, field: Field) -> String {
        let Counts { slips, refused, insertions, move_lists, limits, elsewhere, changed } = self;
        format!(
            "({}) {slips} slips, {refused} of them refused, {insertions} insertions, {move_lists} move lists between, \
             {limits} insertions at the limit, {changed} of {elsewhere} verdicts changed by words for another list",
            field.size()
        )
    }
}

/// The numbers of tests over each field.
#[derive(Default)]
pub struct Insertions(BTreeMap<Field, Counts>);

impl Insertions {
    fn over(&mut self, field: Field) -> &mut Counts {
        self.0.entry(field).or_default()
    }

    /// The fields over which no word that cloaks for another list changed a verdict.
    pub fn gaps(&self) -> Vec<String> {
        let changed = |field: &Field| self.0.get(field).is_some_and(|counts| counts.changed > 0);
        let without = Field::BOTH.into_iter().filter(|field| !changed(field));
        without
            .map(|field| format!("({}) no word for another list changed a verdict", field.size()))
            .collect()
    }

    /// All counts, in one line.
    pub fn summary(&self) -> String {
        let each = self.0.iter().map(|(field, counts)| counts.summary(*field));
        format!("cloaks anywhere: {}", each.collect::<Vec<String>>().join("; "))
    }
}

/// The parts of a key, except the matrix of Pub(S').
#[derive(Clone, Copy)]
struct Public {
    field: Field,
    t_values: TValues,
    pair: Pair,
}

/// A slip, the parts of its key, and its verdict: 0 or 14.
struct Judged {
    public: Public,
    slip: Slip,
    verdict: u8,
}

impl Judged {
    /// The list that these letters reach from the list of Pub(S).
    fn reached(&self, codes: &[u8]) -> Labels {
        list_reached(&self.public.pair.labels, codes)
    }

    /// The slip with its word replaced by this word file.
    fn with_word(&self, word: Vec<u8>) -> Parts {
        vec![self.slip.key.clone(), self.slip.digest.clone(), word]
    }

    /// The parts that ask whether a word cloaks for a list under the slip's key.
    fn asks(&self, list: &Labels, word: &[u8]) -> Parts {
        vec![self.slip.key.clone(), list.to_vec(), word_file(word)]
    }
}

impl Run {
    /// Runs all tests of cloaks over one field.
    pub fn cloaks_anywhere(&mut self, field: Field) -> Checked {
        for place in 0..SLIPS {
            let letters = if place % 50 < 2 { 500 } else { self.maker.random.within(0, 40) };
            let codes = self.maker.random.tangled_word(letters);
            let public = self.public(field);
            let judged = self.judged_slip(public, &codes, [0, 14][place % 2])?;
            if judged.verdict == 0 {
                self.elsewhere(&judged, &codes)?;
            }
            self.steps(&judged, codes)?;
        }
        for place in 0..LIMITS {
            self.limits(field, [0, 14][place % 2])?;
        }
        Ok(())
    }

    fn public(&mut self, field: Field) -> Public {
        let random = &mut self.maker.random;
        Public { field, t_values: random.cloaking_t_values(field), pair: random.invertible_key_pair(field) }
    }

    /// A slip with this word and this verdict. The digest has zero bytes only, because its braid is the shortest. For
    /// the verdict 14, one bit in the matrix of Pub(S') is wrong.
    fn judged_slip(&mut self, public: Public, codes: &[u8], verdict: u8) -> Checked<Judged> {
        let Public { field, t_values, pair } = public;
        let mut slip = accepted_slip(field, &t_values, &pair, &vec![0; field.digest_bytes()], codes);
        if verdict == 14 {
            flip_second_matrix(&mut self.maker.random, field, &mut slip.key);
        }
        let judged = Judged { public, slip, verdict };
        self.parts(&Verify, judged.with_word(word_file(codes)), Some(verdict))?;
        let counts = self.insertions.over(field);
        counts.slips += 1;
        counts.refused += usize::from(verdict == 14);
        Ok(judged)
    }

    /// Compares an input whose answer and numbers must be the expected ones. The account says why.
    fn held(&mut self, operation: Op, parts: Parts, expected: (u8, &[i64]), account: &str) -> Checked {
        let input = self.maker.input(operation, Field::Gf32, parts);
        let outcome = self.input(input.clone(), None)?;
        if (outcome.answer, &outcome.numbers[..]) != expected {
            return Err(Box::new(Failure::Unexpected(input, account.to_string())));
        }
        Ok(())
    }

    /// Checks by the operation `cloaks` that the word cloaks for the list.
    fn cloaks_for(&mut self, judged: &Judged, list: &Labels, word: &[u8]) -> Checked {
        self.held(&Cloaks, judged.asks(list, word), (0, &[1]), CLOAKS)
    }

    /// A word that cloaks for the list under the slip's key. One in six has a second cloaking word inserted.
    fn cloak(&mut self, judged: &Judged, list: &Labels) -> Checked<Vec<u8>> {
        let (random, Public { field, t_values, .. }) = (&mut self.maker.random, judged.public);
        let side = random.within(0, SIDE);
        let mut word = match random.one_in(2) {
            true => random.unit_cloak(list, side),
            false => random.power_cloak(field, &t_values, list, side),
        };
        if random.one_in(6) {
            let place = random.within(0, word.len());
            let inner = random.power_cloak(field, &t_values, &list_reached(list, &word[..place]), 2);
            word = inserted(&word, place, &inner);
        }
        self.cloaks_for(judged, list, &word)?;
        Ok(word)
    }

    /// Changes the word by insertions, with move lists between them. Each step changes the word that the step before it
    /// left. The verdict must stay after each step.
    fn steps(&mut self, judged: &Judged, mut codes: Vec<u8>) -> Checked {
        for step in 0..self.maker.random.within(1, STEPS) {
            let word = if step > 0 && self.maker.random.one_in(3) {
                self.moved(judged, &codes)?
            } else {
                self.with_cloak(judged, &codes)?
            };
            codes = letters(&word);
            self.held(&Verify, judged.with_word(word), (judged.verdict, &[]), STAYS)?;
        }
        Ok(())
    }

    /// The word with a cloaking word inserted at a random place. The inserted word cloaks for the list reached at this
    /// place.
    fn with_cloak(&mut self, judged: &Judged, codes: &[u8]) -> Checked<Vec<u8>> {
        let place = self.maker.random.within(0, codes.len());
        let word = self.cloak(judged, &judged.reached(&codes[..place]))?;
        self.insertions.over(judged.public.field).insertions += 1;
        self.word_from(&WriteWord, vec![inserted(codes, place, &word)])
    }

    /// The word rewritten by accepted moves.
    fn moved(&mut self, judged: &Judged, codes: &[u8]) -> Checked<Vec<u8>> {
        let moves = self.maker.random.within(1, 30);
        let list = move_list(&self.maker.random.walk(codes, moves).moves);
        self.insertions.over(judged.public.field).move_lists += 1;
        self.word_from(&Rewrite, vec![word_file(codes), list])
    }

    /// Inserts a word that cloaks for another list than the one reached into an accepted slip's word. The inserted word
    /// brings every list back, and all matrices have inverses. So the slip stays accepted exactly if the inserted word
    /// also cloaks for the list reached.
    fn elsewhere(&mut self, judged: &Judged, codes: &[u8]) -> Checked {
        let random = &mut self.maker.random;
        let (place, side, any) = (random.within(0, codes.len()), random.within(0, SIDE), random.labels());
        let (reached, other) =
            (judged.reached(&codes[..place]), random.pick(&[any, judged.public.pair.labels]));
        if other == reached {
            return Ok(());
        }
        let word = random.unit_cloak(&other, side);
        self.cloaks_for(judged, &other, &word)?;
        let stays = self.parts(&Cloaks, judged.asks(&reached, &word), Some(0))?.numbers == [1];
        let longer = self.word_from(&WriteWord, vec![inserted(codes, place, &word)])?;
        self.held(&Verify, judged.with_word(longer), (if stays { 0 } else { 14 }, &[]), EXACTLY)?;
        let counts = self.insertions.over(judged.public.field);
        counts.elsewhere += 1;
        counts.changed += usize::from(!stays);
        Ok(())
    }

    /// Inserts a long cloaking word. If the new word has 10,000 letters, the verdict must stay. If it has 10,001
    /// letters, the writer of words and the verdict must answer 10.
    fn limits(&mut self, field: Field, verdict: u8) -> Checked {
        for total in [MOST_LETTERS, MOST_LETTERS + 1] {
            let (public, random) = (self.public(field), &mut self.maker.random);
            let (place, side) = (random.within(0, total / 2), random.within(0, LONG_SIDE));
            let mut codes = random.tangled_word(total);
            let list = list_reached(&public.pair.labels, &codes[..place]);
            let word = random.power_cloak(field, &public.t_values, &list, side);
            codes.truncate(total - word.len());
            let judged = self.judged_slip(public, &codes, verdict)?;
            self.cloaks_for(&judged, &list, &word)?;
            let longer = inserted(&codes, place, &word);
            if total > MOST_LETTERS {
                self.parts(&Verify, judged.with_word(word_file(&longer)), Some(10))?;
                self.parts(&WriteWord, vec![longer], Some(10))?;
            } else {
                let word = self.word_from(&WriteWord, vec![longer])?;
                self.held(&Verify, judged.with_word(word), (verdict, &[]), STAYS)?;
            }
            self.insertions.over(field).limits += 1;
        }
        Ok(())
    }
}

#[cfg(test)]
mod tests {
    use super::*;

    /// Each field must have a changed verdict.
    #[test]
    fn unchanged_verdicts_are_a_gap() {
        let mut insertions = Insertions::default();
        assert_eq!(insertions.gaps().len(), 2);
        insertions.over(Field::Gf32).changed = 1;
        insertions.over(Field::Gf256).elsewhere = 5;
        assert_eq!(insertions.gaps(), ["(256) no word for another list changed a verdict"]);
        insertions.over(Field::Gf256).changed = 1;
        assert!(insertions.gaps().is_empty());
    }
}
