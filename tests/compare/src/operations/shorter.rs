//! The shorter of two words.

use crate::operation::prelude::*;
use crate::operations::read_word::words_of_b1;

pub struct Shorter;

const FIRST: Part = Part { name: "first word", form: Form::Word };
const SECOND: Part = Part { name: "second word", form: Form::Word };

impl Operation for Shorter {
    /// The questions about a word are asked of the first word and then of the second, so a fault can be in either word.
    fn facts(&self) -> Facts {
        let facts = Facts::of("shorter", &[9, 10, 11, 12, 13], &[FIRST, SECOND]);
        Facts { numbers: &["which"], reached: &[1, 2], ..facts }
    }

    /// A single fault is in the first word, in the second, or in both. If there are several faults, both words have all
    /// of them. Words without faults often have almost the same length.
    fn make(&self, maker: &mut Maker, _: Field, faults: &[u8], size: Size) -> Option<Parts> {
        let mut codes = [maker.codes(size), maker.codes(size)];
        let random = &mut maker.random;
        if random.one_in(2) {
            let shorter = codes[0].len().min(codes[1].len());
            codes.iter_mut().for_each(|codes| codes.truncate(shorter + random.below(3)));
        }
        let both = [faults, faults];
        let placed =
            if faults.len() == 1 { random.pick(&[[faults, &[]], [&[], faults], both]) } else { both };
        let word = |place: usize, random: &mut _| files::word(random, &codes[place], placed[place]);
        Some(vec![word(0, random), word(1, random)])
    }

    fn call(&self, by: By, input: &Input) -> Outcome {
        let [first, second] = input.slices();
        let (a, an, b, bn) = (first.as_ptr(), first.len(), second.as_ptr(), second.len());
        match by {
            // SAFETY: see `Operation::call`.
            By::Library => outcome!(unsafe { walnut_shorter(a, an, b, bn) }, which),
            By::Reference => outcome!(reference::shorter(first, second), which),
        }
    }

    fn fixed(&self) -> Vec<Fixed> {
        let shorter = |a: &str, b: &str| Fixed::of(&Shorter, &format!("{a} and {b}"), &[&hex(a), &hex(b)]);
        let longest = words_of_b1().pop().expect("there are words of b1").1;
        vec![
            shorter("00 01 00", "00 00").number(2),
            shorter("00 00", "00 01 00").number(1),
            shorter("00 01 00", "00 01 10").number(1),
            // Both files have 3 bytes, although the second word has one letter less.
            shorter("00 02 01", "00 01 00").number(1),
            Fixed::of(&Shorter, "10,000 letters and none", &[&longest, &hex("00 00")]).number(2),
            Fixed::of(&Shorter, "10,000 letters twice", &[&longest, &longest]).number(1),
            shorter("", "27 11").refused(9),
            shorter("27 11", "").refused(10),
            shorter("00 00", "00 01").refused(11),
            shorter("00 01 70", "00 00").refused(12),
            shorter("00 00", "00 01 01").refused(13),
        ]
    }

    /// Words in which the first has one fault or none, and the second has one fault or none, in every combination.
    fn small(&self, run: &mut Run) -> Checked {
        let faults = || (9..=13).map(|fault| vec![fault]).chain([vec![]]);
        for (first, second) in faults().flat_map(|first| faults().map(move |second| (first.clone(), second)))
        {
            for _ in 0..10 {
                let words = [&first, &second].map(|faults| run.maker.word(faults, Size::Short)).to_vec();
                let expected = first.iter().chain(&second).next().copied().unwrap_or(0);
                run.parts(&Shorter, words, Some(expected))?;
            }
        }
        Ok(())
    }
}
