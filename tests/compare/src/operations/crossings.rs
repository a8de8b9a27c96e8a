//! How often two strands cross.

use reference::letter::Letter;
use reference::word::word_file;

use crate::operation::prelude::*;

pub struct Crossings;

const TWO_LABELS: Part = Part { name: "two labels", form: Form::Fixed(2) };

impl Operation for Crossings {
    fn facts(&self) -> Facts {
        let facts = Facts::of("crossings", &[9, 10, 11, 12, 13, 27], &[parts::WORD, TWO_LABELS]);
        Facts { numbers: &["crossings"], share: 4, ..facts }
    }

    /// Fault 27 is a label above 7, or a label twice.
    fn make(&self, maker: &mut Maker, _: Field, faults: &[u8], size: Size) -> Option<Parts> {
        let word = maker.word(faults, size);
        let random = &mut maker.random;
        let (first, second) = files::two_places(random);
        let mut labels = [first as u8, second as u8];
        if faults.contains(&27) {
            let place = random.below(2);
            let any = random.within(8, 255) as u8;
            labels[place] = random.pick(&[labels[1 - place], 8, any]);
        }
        Some(vec![word, labels.to_vec()])
    }

    fn call(&self, by: By, input: &Input) -> Outcome {
        let ([word, _], [a, b]) = (input.slices(), input.array(1));
        match by {
            // SAFETY: see `Operation::call`.
            By::Library => outcome!(unsafe { walnut_crossings(word.as_ptr(), word.len(), a, b) }, crossings),
            By::Reference => outcome!(reference::crossings(word, a, b), crossings),
        }
    }

    /// No case can show that the two labels are exchanged: the number and the question are symmetric in them.
    fn fixed(&self) -> Vec<Fixed> {
        by_hand().into_iter().chain(of_the_paper()).chain(refusals()).collect()
    }

    /// Every two labels from 0 to 8, on every word of two letters.
    fn small(&self, run: &mut Run) -> Checked {
        let codes = || (0..16).filter(|code| Letter::from_code(*code).is_some());
        for (first, second) in codes().flat_map(|first| codes().map(move |second| (first, second))) {
            for labels in (0..81).map(|number| vec![number / 9, number % 9]) {
                let expected = if labels.contains(&8) || labels[0] == labels[1] { 27 } else { 0 };
                run.parts(&Crossings, vec![word_file(&[first, second]), labels], Some(expected))?;
            }
        }
        Ok(())
    }
}

fn case(name: &str, word: &str, a: u8, b: u8) -> Fixed {
    Fixed::of(&Crossings, &format!("{name}, labels {a} and {b}"), &[&hex(word), &[a, b]])
}

/// In b1 b2 b1, b1 brings label 0 to the second position, so b2 exchanges 0 and 2. The second b1 exchanges 1 and 2.
/// Each of the seven letters exchanges label 0, which moves to the right, with the next label.
fn by_hand() -> Vec<Fixed> {
    let mut cases = vec![case("b1 b2 b2", "00 03 01 10", 2, 0).number(2)];
    for (a, b) in [(0, 1), (0, 2), (1, 2)] {
        cases.push(case("b1 b2 b1", "00 03 01 00", a, b).number(1));
        cases.push(case("their inverses", "00 03 89 80", a, b).number(-1));
    }
    for (b, number) in [(1, 1), (2, -1), (3, 1), (4, 1), (5, -1), (6, 1), (7, -1)] {
        cases.push(case("the seven letters", SEVEN, 0, b).number(number));
        cases.push(case("the seven letters", SEVEN, b, b % 7 + 1).number(0));
    }
    cases.push(case("b1 b1⁻¹", "00 02 08", 0, 1).number(0));
    cases.push(case("the empty word", "00 00", 3, 5).number(0));
    let longest = format!("27 10 {}", "EE ".repeat(5_000));
    cases.push(case("b7⁻¹, 10,000 times", &longest, 6, 7).number(-10_000));
    cases
}

/// The word 00 02 00 gives 2 for the labels 0 and 1, and 0 for all other labels, in either order.
fn of_the_paper() -> Vec<Fixed> {
    let pairs = (0..8).flat_map(|a| (0..8).map(move |b| (a, b))).filter(|(a, b)| a != b);
    pairs.map(|(a, b)| case("b1 b1", "00 02 00", a, b).number(if a + b == 1 { 2 } else { 0 })).collect()
}

fn refusals() -> Vec<Fixed> {
    let words = [("00 02 00", 27), ("00 00", 27), ("", 9), ("27 11", 10), ("00 02", 11), ("00 01 70", 12)];
    let mut cases = vec![case("filler 1", "00 01 01", 0, 1).refused(13)];
    for (a, b) in [(8, 0), (0, 8), (255, 0), (0, 255), (0, 0), (7, 7), (8, 8)] {
        cases.extend(words.map(|(word, answer)| case(word, word, a, b).refused(answer)));
    }
    cases
}
