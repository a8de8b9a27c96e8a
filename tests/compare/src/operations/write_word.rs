//! The writer of words from codes.

use reference::letter::is_letter;

use crate::operation::prelude::*;
use crate::operations::read_word::words_of_b1;

pub struct WriteWord;

const CODES: Part = Part { name: "codes", form: Form::Bytes };

impl Operation for WriteWord {
    fn facts(&self) -> Facts {
        let facts = Facts::of("write_word", &[15, 10, 12], &[CODES]);
        Facts { output: WORDS, numbers: &["bytes"], share: 10, ..facts }
    }

    fn make(&self, maker: &mut Maker, _: Field, faults: &[u8], size: Size) -> Option<Parts> {
        let mut codes = maker.codes(size);
        let random = &mut maker.random;
        if faults.contains(&10) {
            let letters = random.pick(&[10_001, 10_002, 20_000]);
            codes.resize(letters, random.letter());
        }
        if faults.contains(&12) {
            codes.resize(codes.len().max(1), 0);
            let place = random.below(codes.len() as u64);
            codes[place] = files::bad_code(random);
        }
        Some(vec![codes])
    }

    fn call(&self, by: By, input: &Input) -> Outcome {
        let [codes] = input.slices();
        input.lending(|out| {
            let (bytes, room) = (out.as_mut_ptr(), out.len());
            match by {
                // SAFETY: see `Operation::call`.
                By::Library => {
                    outcome!(unsafe { walnut_write_word(codes.as_ptr(), codes.len(), bytes, room) }, bytes)
                }
                By::Reference => outcome!(reference::write_word(codes, out), bytes),
            }
        })
    }

    fn fixed(&self) -> Vec<Fixed> {
        let write = |name: &str, codes: &[u8]| Fixed::of(&WriteWord, name, &[codes]);
        let mut cases = vec![
            write("seven codes", &hex("00 09 02 03 0C 05 0E")).writes(&hex(SEVEN)),
            write("10,001 codes", &[0; 10_001]).refused(10),
        ];
        let repeated =
            |(letters, file): (usize, Vec<u8>)| write("b1 repeated", &vec![0; letters]).writes(&file);
        cases.extend(words_of_b1().into_iter().map(repeated));
        cases
    }

    /// Every byte as a code.
    fn small(&self, run: &mut Run) -> Checked {
        for byte in 0..=255 {
            let expected = if is_letter(byte) { 0 } else { 12 };
            run.parts(&WriteWord, vec![vec![byte]], Some(expected))?;
        }
        Ok(())
    }
}
