//! Shortening. With an effort over 0 the contract does not say which word is written. The library and the reference do
//! the same search, so their new words must have the same bytes. The new word must also have the properties that hold
//! for every search.

use reference::reduce::freely_reduced;
use reference::shortener::without_handles;
use reference::testkit::signatures;
use reference::word::{letters, word_file};

use crate::case::GUARD;
use crate::operation::prelude::*;
use crate::operations::read_word::words_of_b1;
use crate::plan::Failure;

pub struct Shorten;

/// The effort as one byte, so that damage cannot make it so large that the reference takes long. Exception: byte 255
/// stands for the effort 65,535.
const EFFORT: Part = Part { name: "effort", form: Form::Fixed(1) };

fn effort_of(byte: u8) -> u16 {
    if byte == 255 {
        65_535
    } else {
        byte.into()
    }
}

/// For each class of words: the percentage of letters that an experiment outside the project saved with effort 5, the
/// number of letters of all words, and the numbers after shortening with efforts 0, 1 and 5. The numbers of letters
/// come from the reference. The experiment had twice as many words, so its percentage is a bound with one percent less.
const SAVED: [(&str, f64, usize, [usize; 3]); 5] = [
    ("sig32", 33.7, 11_516, [10_504, 8_062, 7_660]),
    ("sig256", 31.1, 21_854, [19_658, 15_508, 14_874]),
    ("stoch32", 71.7, 10_798, [8_562, 3_328, 3_034]),
    ("handles32", 36.5, 5_018, [5_018, 3_598, 3_110]),
    ("rnd10000", 37.7, 10_000, [7_446, 6_348, 6_148]),
];

/// The word files of a class of tests/signatures.txt. The words of `handles32` are those of `stoch32`, after handle
/// reduction by the reference.
fn words_of(class: &str) -> Vec<Vec<u8>> {
    if class != "handles32" {
        return signatures(class);
    }
    let reduced =
        |word: &Vec<u8>| without_handles(&letters(word)).expect("no step leaves over 10,000 letters");
    signatures("stoch32").iter().map(|word| word_file(&reduced(word))).collect()
}

/// The number of random words of middle size that are shortened.
const MIDDLING: usize = 40;

impl Operation for Shorten {
    fn facts(&self) -> Facts {
        let facts = Facts::of("shorten", &[15, 9, 10, 11, 12, 13], &[parts::WORD, EFFORT]);
        Facts { output: WORDS, numbers: &["bytes"], share: 7, ..facts }
    }

    /// Long words get little effort, because the reference is slow.
    fn make(&self, maker: &mut Maker, _: Field, faults: &[u8], size: Size) -> Option<Parts> {
        let word = maker.word(faults, size);
        let effort = match size {
            Size::Long => maker.random.pick(&[0, 0, 1]),
            Size::Middle => maker.random.pick(&[0, 1, 5]),
            Size::Short => maker.random.pick(&[0, 1, 2, 5, 50, 250]),
        };
        Some(vec![word, vec![effort]])
    }

    fn call(&self, by: By, input: &Input) -> Outcome {
        let ([word, _], effort) = (input.slices(), effort_of(input.parts[1][0]));
        input.lending(|out| {
            let (bytes, room) = (out.as_mut_ptr(), out.len());
            match by {
                // SAFETY: see `Operation::call`.
                By::Library => {
                    outcome!(unsafe { walnut_shorten(word.as_ptr(), word.len(), effort, bytes, room) }, bytes)
                }
                By::Reference => outcome!(reference::shorten(word, effort, out), bytes),
            }
        })
    }

    /// Words whose shortest form is known. b1 b2 b1 b2⁻¹ b1⁻¹ becomes b2, b1 b3 b1⁻¹ becomes b3, and positive words
    /// stay.
    fn fixed(&self) -> Vec<Fixed> {
        let shorten = |name: &str, word: &[u8], effort: u8| Fixed::of(&Shorten, name, &[word, &[effort]]);
        let turned = hex("00 05 01 09 80");
        let mut cases = vec![
            shorten("b1 b2 b1 b2⁻¹ b1⁻¹", &turned, 5).writes(&hex("00 01 10")),
            shorten("b1 b2 b1 b2⁻¹ b1⁻¹ without effort", &turned, 0).writes(&turned),
            shorten("b1 b3 b1⁻¹", &hex("00 03 02 80"), 0).writes(&hex("00 01 20")),
            shorten("b1 b1⁻¹", &hex("00 02 08"), 0).writes(&hex("00 00")),
            shorten("b7 b1 b7⁻¹ b1⁻¹", &hex("00 04 60 E8"), 255).writes(&hex("00 00")),
            shorten("no letters", &hex("00 00"), 255).writes(&hex("00 00")),
            shorten("the seven letters", &hex(SEVEN), 0).writes(&hex(SEVEN)),
            shorten("number 10,001", &hex("27 11"), 1).refused(10),
        ];
        cases.extend(
            words_of_b1().into_iter().map(|(_, file)| shorten("b1 repeated", &file, 1).writes(&file)),
        );
        cases
    }

    /// Shortens the words of each class and counts their letters. Then shortens random words of middle size, before and
    /// after free reduction.
    fn small(&self, run: &mut Run) -> Checked {
        for (class, percent, before, after) in SAVED {
            let saved = 100.0 - 100.0 * after[2] as f64 / before as f64;
            assert!(saved > percent - 1.0, "{class}: {saved} percent saved");
            let words = words_of(class);
            assert_eq!(words.iter().map(|word| letters(word).len()).sum::<usize>(), before, "{class}");
            for (effort, saved) in [0, 1, 5].into_iter().zip(after) {
                let mut sum = 0;
                for word in &words {
                    sum += shortened(run, word, effort)?;
                }
                assert_eq!(sum, saved, "{class}: letters after effort {effort}");
            }
        }
        for _ in 0..MIDDLING {
            let codes = run.maker.codes(Size::Middle);
            for codes in [freely_reduced(&codes), codes] {
                shortened(run, &word_file(&codes), 5)?;
            }
        }
        Ok(())
    }
}

/// Compares the shortening of one word, and checks the properties that the new word has with every search. Returns the
/// number of letters of the new word.
fn shortened(run: &mut Run, word: &[u8], effort: u8) -> Checked<usize> {
    let input = run.maker.input(&Shorten, Field::Gf32, vec![word.to_vec(), vec![effort]]);
    let outcome = run.input(input.clone(), Some(0))?;
    let written = &outcome.bytes[GUARD..][..outcome.numbers[0] as usize];
    let (old, new) = (letters(word), letters(written));
    match run.maker.random.fault_of_shorter(&old, &new) {
        Some(fault) => Err(Box::new(Failure::Unexpected(input, fault.to_string()))),
        None => Ok(new.len()),
    }
}
