//! The reciprocal in a field.

use crate::operation::prelude::*;

pub struct Reciprocal;

const ELEMENT: Part = Part { name: "element", form: Form::Fixed(1) };

impl Operation for Reciprocal {
    fn facts(&self) -> Facts {
        Facts {
            over: Over::Named,
            numbers: &["value"],
            share: 1,
            ..Facts::of("reciprocal", &[17, 4], &[ELEMENT])
        }
    }

    fn make(&self, maker: &mut Maker, field: Field, faults: &[u8], _: Size) -> Option<Parts> {
        let element = match (faults.contains(&17), faults.contains(&4)) {
            (true, true) => return None,
            (true, false) => files::too_high(&mut maker.random),
            (false, true) => 0,
            (false, false) => maker.random.element_from(field, 1),
        };
        Some(vec![vec![element]])
    }

    fn call(&self, by: By, input: &Input) -> Outcome {
        let [a] = input.array(0);
        match by {
            // SAFETY: the function takes only a number.
            By::Library => outcome!(unsafe { walnut_reciprocal(input.large(), a) }, value),
            By::Reference => outcome!(reference::reciprocal(input.named, a), value),
        }
    }

    /// The reciprocals in the larger field follow from the rules in `fixed/keys.rs`.
    fn fixed(&self) -> Vec<Fixed> {
        let reciprocal = |a: u8| Fixed::of(&Reciprocal, &format!("1 / {a}"), &[&[a]]);
        vec![
            reciprocal(3).number(28),
            reciprocal(0).refused(4),
            reciprocal(32).refused(17),
            reciprocal(3).large().number(244),
            reciprocal(2).large().number(142),
            reciprocal(142).large().number(2),
            reciprocal(244).large().number(3),
            reciprocal(0).large().refused(4),
        ]
    }

    /// The reciprocal of every byte, element or not.
    fn small(&self, run: &mut Run) -> Checked {
        for field in Field::BOTH {
            for number in 0..=255 {
                run.over(&Reciprocal, field, vec![vec![number]], None)?;
            }
        }
        Ok(())
    }
}
