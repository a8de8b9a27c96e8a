//! The field product.

use crate::operation::prelude::*;

pub struct Product;

const ELEMENTS: Part = Part { name: "elements", form: Form::Fixed(2) };

impl Operation for Product {
    fn facts(&self) -> Facts {
        Facts { over: Over::Named, numbers: &["value"], share: 1, ..Facts::of("product", &[17], &[ELEMENTS]) }
    }

    fn make(&self, maker: &mut Maker, field: Field, faults: &[u8], _: Size) -> Option<Parts> {
        let random = &mut maker.random;
        let mut elements = random.elements::<2>(field);
        if faults.contains(&17) {
            elements[random.below(2)] = files::too_high(random);
        }
        Some(vec![elements.to_vec()])
    }

    fn call(&self, by: By, input: &Input) -> Outcome {
        let [a, b] = input.array(0);
        match by {
            // SAFETY: the function takes only numbers.
            By::Library => outcome!(unsafe { walnut_product(input.large(), a, b) }, value),
            By::Reference => outcome!(reference::product(input.named, a, b), value),
        }
    }

    /// No case can show that the factors are exchanged: the product and its question are symmetric in them. In the
    /// larger field products below x^8 are not reduced. The square of 255 is
    /// x^14 + x^12 + x^10 + x^8 + x^6 + x^4 + x^2 + 1. Here x^8 = 29, x^10 = 116, x^12 = 2 × 2 × 116 = 205 and
    /// x^14 = 2 × 2 × 205 = 19, so the sum is 19 + 205 + 116 + 29 + 64 + 16 + 4 + 1 = 226.
    fn fixed(&self) -> Vec<Fixed> {
        let product = |a: u8, b: u8| Fixed::of(&Product, &format!("{a} × {b}"), &[&[a, b]]);
        vec![
            product(16, 2).number(5),
            product(31, 31).number(18),
            product(32, 0).refused(17),
            product(0, 32).refused(17),
            product(16, 2).large().number(32),
            product(128, 2).large().number(29),
            product(16, 16).large().number(29),
            product(31, 2).large().number(62),
            product(32, 1).large().number(32),
            product(255, 0).large().number(0),
            product(255, 255).large().number(226),
        ]
    }

    /// The product of every two bytes, elements or not.
    fn small(&self, run: &mut Run) -> Checked {
        for field in Field::BOTH {
            for number in 0..=0xFFFF_u16 {
                run.over(&Product, field, vec![number.to_be_bytes().to_vec()], None)?;
            }
        }
        Ok(())
    }
}
