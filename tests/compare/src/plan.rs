//! The plan: what is compared, in which order. An operation that works over a field is compared over both fields.

mod cloaks;
mod halves;
pub mod keys;
mod shelves;
mod slips;

use reference::testkit::Random;
use reference::Field;

use crate::case::{Input, Outcome, Parts};
use crate::make::{Maker, Size};
use crate::operation::{parts, By, Op, Output};
use crate::operations::{over_fields, ALL};
use crate::tally::Tally;
use cloaks::Insertions;

/// The number of inputs for each fault, for each two faults, and for the longest words.
const VARIANTS: usize = 5;

/// The number of random matrices in the test of `file_entries`, and of keys that are written and read back.
pub const MATRICES: usize = 200;

/// After this number of random cases, one slip over each field is made and judged.
const CASES_TO_A_SLIP: usize = 400;

/// An input that fails.
pub enum Failure {
    /// The library and the reference give different outcomes.
    Differs(Input),
    /// Both give the same outcome, but it is wrong. The text says why.
    Unexpected(Input, String),
}

/// No fault, each fault alone, and each two faults.
fn in_pairs(questions: &[u8]) -> Vec<Vec<u8>> {
    let mut pairs = vec![vec![]];
    for (place, first) in questions.iter().enumerate() {
        pairs.push(vec![*first]);
        pairs.extend(questions[place + 1..].iter().map(|second| vec![*first, *second]));
    }
    pairs
}

/// The result of a check: a value, or the failure.
pub type Checked<T = ()> = Result<T, Box<Failure>>;

/// A run of comparisons.
pub struct Run {
    pub maker: Maker,
    pub tally: Tally,
    pub insertions: Insertions,
}

impl Run {
    pub fn new(seed: u64) -> Run {
        let maker = Maker { random: Random::seeded(seed) };
        Run { maker, tally: Tally::default(), insertions: Insertions::default() }
    }

    /// Runs the whole plan, with `cases` random cases at its end.
    pub fn whole(&mut self, cases: usize) -> Checked {
        for operation in ALL {
            operation.small(self)?;
        }
        for field in Field::BOTH {
            self.keys(field)?;
            self.halves(field)?;
        }
        self.every_code()?;
        self.every_number_of_letters()?;
        self.faults_in_pairs()?;
        self.rooms()?;
        self.longest()?;
        for field in Field::BOTH {
            self.cloaks_anywhere(field)?;
        }
        self.histories()?;
        for place in 0..cases {
            if place.is_multiple_of(CASES_TO_A_SLIP) {
                for field in Field::BOTH {
                    self.slip(field, place / CASES_TO_A_SLIP)?;
                }
            }
            self.random_case()?;
        }
        Ok(())
    }

    /// Compares the outcomes of one input. If the papers determine its answer, also checks this answer.
    pub fn input(&mut self, input: Input, expected: Option<u8>) -> Checked<Outcome> {
        let (reference, library) = (input.outcome(By::Reference), input.outcome(By::Library));
        if library != reference {
            return Err(Box::new(Failure::Differs(input)));
        }
        if let Some(answer) = expected.filter(|answer| *answer != reference.answer) {
            let account = format!("the papers' order of questions gives answer {answer}");
            return Err(Box::new(Failure::Unexpected(input, account)));
        }
        self.tally.count(&input, &reference);
        Ok(reference)
    }

    /// Compares an input of these parts, with a named field.
    pub fn over(
        &mut self,
        operation: Op,
        field: Field,
        parts: Parts,
        expected: Option<u8>,
    ) -> Checked<Outcome> {
        let input = self.maker.input(operation, field, parts);
        self.input(input, expected)
    }

    /// Compares an input of these parts, for an operation that takes no named field.
    pub fn parts(&mut self, operation: Op, parts: Parts, expected: Option<u8>) -> Checked<Outcome> {
        self.over(operation, Field::Gf32, parts, expected)
    }

    /// Compares an input with these faults, if an input can have them together.
    fn with_faults(&mut self, operation: Op, field: Field, faults: &[u8], size: Size) -> Checked {
        match self.maker.with_faults(operation, field, faults, size) {
            Some((input, expected)) => self.input(input, Some(expected)).map(drop),
            None => Ok(()),
        }
    }

    /// For each operation that takes a word: words of one and of two letters with every byte as their codes.
    fn every_code(&mut self) -> Checked {
        for (operation, field) in over_fields() {
            let Some(place) = operation.facts().place(parts::WORD) else { continue };
            for (number, byte) in (0..=255).flat_map(|byte| [(1, byte), (2, byte)]) {
                let mut input = self.maker.accepted(operation, field, Size::Short);
                input.parts[place] = vec![0, number, byte];
                self.input(input, None)?;
            }
        }
        Ok(())
    }

    /// For each operation and each of its fields: no fault, each fault alone, and each two faults.
    fn faults_in_pairs(&mut self) -> Checked {
        for (operation, field) in over_fields() {
            let pairs = in_pairs(&operation.facts().questions_over(field));
            for faults in pairs.iter().flat_map(|faults| [faults; VARIANTS]) {
                self.with_faults(operation, field, faults, Size::Short)?;
            }
        }
        Ok(())
    }

    /// Outputs that are too small, just large enough, larger, and of sizes near those of keys.
    fn rooms(&mut self) -> Checked {
        for (operation, field) in over_fields() {
            let Output::Least(least, refusal) = operation.facts().output else { continue };
            let least = least(field);
            for room in [0, 1, 2, 82, 83, 84, 127, 128, 129, least - 1, least, least + 1, least + 5_000] {
                for faults in [vec![], self.maker.faults(operation, field, 2)] {
                    let case = self.maker.with_faults(operation, field, &faults, Size::Short);
                    let Some((mut input, _)) = case else { continue };
                    input.room = room;
                    self.input(input, (room < least).then_some(refusal))?;
                }
            }
        }
        Ok(())
    }

    /// The longest words and lists, without a fault and with one.
    fn longest(&mut self) -> Checked {
        for (operation, field) in over_fields() {
            for _ in 0..VARIANTS {
                for faults in [vec![], self.maker.faults(operation, field, 1)] {
                    self.with_faults(operation, field, &faults, Size::Long)?;
                }
            }
        }
        Ok(())
    }

    // ---- Random cases ----

    /// A random operation. Each is chosen as often as its share says.
    fn operation(&mut self) -> Op {
        let shares = ALL.into_iter().flat_map(|operation| vec![operation; operation.facts().share]);
        self.maker.random.pick(&shares.collect::<Vec<Op>>())
    }

    /// The length of words in a random case. Most words are short.
    fn size(&mut self) -> Size {
        match self.maker.random.below(500) {
            0 => Size::Long,
            1..=15 => Size::Middle,
            _ => Size::Short,
        }
    }

    /// The faults of a random case: at most four.
    fn some_faults(&mut self, operation: Op, field: Field) -> Vec<u8> {
        let most = self.maker.random.pick(&[0, 0, 0, 1, 1, 2, 4]);
        let mut faults = self.maker.faults(operation, field, most);
        if !self.maker.random.one_in(20) {
            faults.retain(|fault| !operation.facts().slow.contains(fault));
        }
        faults
    }

    /// One case of any operation: random bytes, rough parts, a damaged input, or an input with known faults.
    fn random_case(&mut self) -> Checked {
        let operation = self.operation();
        let way = self.maker.random.below(10);
        if way == 0 {
            let input = self.maker.blind(operation);
            return self.input(input, None).map(drop);
        }
        let rough = if way <= 3 { operation.rough(&mut self.maker) } else { None };
        if let Some(parts) = rough {
            return self.parts(operation, parts, None).map(drop);
        }
        let field = self.maker.random.pick(operation.facts().fields());
        let (faults, size) = (self.some_faults(operation, field), self.size());
        let case = self.maker.with_faults(operation, field, &faults, size);
        let Some((input, expected)) = case else { return Ok(()) };
        if way <= 3 {
            let damaged = self.maker.damaged(input);
            return self.input(damaged, None).map(drop);
        }
        self.input(input, Some(expected)).map(drop)
    }
}
