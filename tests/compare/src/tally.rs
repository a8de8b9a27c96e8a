//! Counts what was compared: the cases of each operation over each field, and the answers that occurred.

use std::collections::{BTreeMap, BTreeSet};

use reference::Field;

use crate::case::{Input, Outcome};
use crate::operation::Op;
use crate::operations::over_fields;

/// The cases of one operation over one field.
#[derive(Default)]
struct Seen {
    cases: usize,
    answers: BTreeSet<u8>,
    /// The values of the first number on success that are among the values it must take.
    numbers: BTreeSet<i64>,
}

/// The cases of all operations, by name and field.
#[derive(Default)]
pub struct Tally(BTreeMap<(&'static str, Field), Seen>);

impl Tally {
    /// Counts a case on which the library and the reference agree.
    pub fn count(&mut self, input: &Input, outcome: &Outcome) {
        let facts = input.facts();
        let seen = self.0.entry((facts.name, input.field())).or_default();
        seen.cases += 1;
        seen.answers.insert(outcome.answer);
        if outcome.answer == 0 {
            seen.numbers
                .extend(outcome.numbers.iter().take(1).filter(|number| facts.reached.contains(number)));
        }
    }

    /// Describes the answers and numbers of an operation over a field that are missing or not allowed, if there are
    /// any.
    fn gap(&self, operation: Op, field: Field) -> Option<String> {
        let (facts, empty) = (operation.facts(), Seen::default());
        let seen = self.0.get(&(facts.name, field)).unwrap_or(&empty);
        let allowed: BTreeSet<u8> = facts.questions_over(field).into_iter().chain([0]).collect();
        let whole = seen.answers == allowed && seen.numbers == facts.reached.iter().copied().collect();
        let (name, reached) = (facts.name_over(field), facts.reached);
        let account = format!(
            "{name}: answers {:?}, not {allowed:?}, or of {reached:?} only {:?}",
            seen.answers, seen.numbers
        );
        (!whole).then_some(account)
    }

    /// Describes what is missing or not allowed. It is empty if every operation over each of its fields gave exactly
    /// the answers that it can give, and every number that it must reach.
    pub fn gaps(&self) -> Vec<String> {
        over_fields().filter_map(|(operation, field)| self.gap(operation, field)).collect()
    }

    /// The number of cases of each operation over each of its fields.
    pub fn summary(&self) -> String {
        let cases = |name, field| self.0.get(&(name, field)).map_or(0, |seen| seen.cases);
        let counts = over_fields().map(|(operation, field)| (operation.facts(), field));
        let each =
            counts.map(|(facts, field)| format!("{} {}", facts.name_over(field), cases(facts.name, field)));
        let total: usize = self.0.values().map(|seen| seen.cases).sum();
        format!("compared {total} cases: {}", each.collect::<Vec<String>>().join(", "))
    }
}
