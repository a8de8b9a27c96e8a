//! How many words of a length end in a list of four labels.

use reference::spread::lists;

use crate::operation::prelude::*;

pub struct WordsEnding;

/// The length as eight bytes, high byte first, so that it can be any `size_t`.
const LENGTH: Part = Part { name: "length", form: Form::Fixed(8) };

const ENDED: Part = Part { name: "list", form: Form::Bytes };

impl Operation for WordsEnding {
    fn facts(&self) -> Facts {
        let facts = Facts::of("words_ending", &[35], &[LENGTH, ENDED]);
        Facts { numbers: &["words"], ..facts }
    }

    /// Fault 35 is a length above 12, a label above 3, a label twice, too few labels or too many.
    fn make(&self, maker: &mut Maker, _: Field, faults: &[u8], _: Size) -> Option<Parts> {
        let random = &mut maker.random;
        let (mut length, mut labels) = (random.within(0, 12), lists()[random.below(24)].to_vec());
        if faults.contains(&35) {
            let (place, label) = (random.below(4), random.within(4, 255) as u8);
            match random.below(5) {
                0 => length = random.pick(&[13, 14, 256, 258, 65_538, 1 << 32 | 2, usize::MAX]),
                1 => labels[place] = label,
                2 => labels[place] = labels[(place + 1) % 4],
                3 => labels.truncate(place),
                _ => labels.push(random.within(0, 255) as u8),
            }
        }
        Some(vec![length.to_be_bytes().to_vec(), labels])
    }

    fn call(&self, by: By, input: &Input) -> Outcome {
        let ([_, labels], length) = (input.slices(), input.size(0));
        match by {
            // SAFETY: see `Operation::call`.
            By::Library => {
                outcome!(unsafe { walnut_words_ending(length, labels.as_ptr(), labels.len()) }, words)
            }
            By::Reference => outcome!(reference::words_ending(length, labels), words),
        }
    }

    fn fixed(&self) -> Vec<Fixed> {
        by_hand().into_iter().chain(refusals()).collect()
    }

    /// Each length up to 20 with each list of four labels from 0 to 4, and with each list of at most two. So all 24
    /// lists with all 13 lengths are among them.
    fn small(&self, run: &mut Run) -> Checked {
        let four = (0..625).map(|n| vec![n / 125, n / 25 % 5, n / 5 % 5, n % 5]);
        let fewer = (0..25).flat_map(|n| [vec![], vec![n / 5], vec![n / 5, n % 5]]);
        for labels in four.chain(fewer) {
            let labels: Vec<u8> = labels.into_iter().map(|label: u32| label as u8).collect();
            let listed = lists().iter().any(|list| list[..] == labels);
            for length in 0..=20_usize {
                let expected = if length <= 12 && listed { 0 } else { 35 };
                let parts = vec![length.to_be_bytes().to_vec(), labels.clone()];
                run.parts(&WordsEnding, parts, Some(expected))?;
            }
        }
        Ok(())
    }
}

fn case(length: usize, labels: &[u8]) -> Fixed {
    Fixed::of(&WordsEnding, &format!("length {length}, list {labels:?}"), &[&length.to_be_bytes(), labels])
}

/// Words of two letters (document 02 gives the number 12), words of one letter, and the word without letters.
fn by_hand() -> Vec<Fixed> {
    let two = [
        ([0, 1, 2, 3], 12),
        ([1, 0, 3, 2], 8),
        ([1, 2, 0, 3], 4),
        ([2, 0, 1, 3], 4),
        ([0, 2, 3, 1], 4),
        ([0, 3, 1, 2], 4),
        ([2, 3, 0, 1], 0),
        ([0, 1, 3, 2], 0),
    ];
    let one = [([1, 0, 2, 3], 2), ([0, 2, 1, 3], 2), ([0, 1, 3, 2], 2), ([0, 1, 2, 3], 0), ([3, 2, 1, 0], 0)];
    let none = [([0, 1, 2, 3], 1), ([1, 0, 2, 3], 0)];
    let mut cases = Vec::new();
    for (length, numbers) in [(2, &two[..]), (1, &one), (0, &none)] {
        cases.extend(numbers.iter().map(|(labels, number)| case(length, labels).number(*number)));
    }
    cases
}

fn refusals() -> Vec<Fixed> {
    let lengths = [13, 14, 255, 256, 258, 65_538, 1 << 32, 1 << 32 | 2, usize::MAX];
    let mut cases: Vec<Fixed> =
        lengths.into_iter().map(|length| case(length, &[0, 1, 2, 3]).refused(35)).collect();
    let lists: [&[u8]; 9] = [
        &[],
        &[0],
        &[0, 1, 2],
        &[0, 1, 2, 2],
        &[0, 0, 2, 3],
        &[0, 1, 2, 4],
        &[0, 1, 2, 255],
        &[1, 2, 3, 4],
        &[0, 1, 2, 3, 0],
    ];
    cases.extend(lists.map(|labels| case(2, labels).refused(35)));
    cases
}
