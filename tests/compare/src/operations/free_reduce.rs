//! Free reduction.

use crate::operation::prelude::*;
use crate::operations::read_word::words_of_b1;

pub struct FreeReduce;

impl Operation for FreeReduce {
    fn facts(&self) -> Facts {
        let facts = Facts::of("free_reduce", &[15, 9, 10, 11, 12, 13], &[parts::WORD]);
        Facts { output: WORDS, numbers: &["bytes"], share: 7, ..facts }
    }

    fn make(&self, maker: &mut Maker, _: Field, faults: &[u8], size: Size) -> Option<Parts> {
        Some(vec![maker.word(faults, size)])
    }

    fn call(&self, by: By, input: &Input) -> Outcome {
        let [word] = input.slices();
        input.lending(|out| {
            let (bytes, room) = (out.as_mut_ptr(), out.len());
            match by {
                // SAFETY: see `Operation::call`.
                By::Library => {
                    outcome!(unsafe { walnut_free_reduce(word.as_ptr(), word.len(), bytes, room) }, bytes)
                }
                By::Reference => outcome!(reference::free_reduce(word, out), bytes),
            }
        })
    }

    /// b1 b2 b2⁻¹ b3 becomes b1 b3 (source 000, section 5.1). Of two cancelling letters the inverse may come first.
    fn fixed(&self) -> Vec<Fixed> {
        let reduce = |name: &str, word: &[u8]| Fixed::of(&FreeReduce, name, &[word]);
        let mut cases = vec![
            reduce("b1 b2 b2⁻¹ b3", &hex("00 04 01 92")).writes(&hex("00 02 02")),
            reduce("b1 b1⁻¹", &hex("00 02 08")).writes(&hex("00 00")),
            reduce("b1⁻¹ b1", &hex("00 02 80")).writes(&hex("00 00")),
            reduce("the seven letters", &hex(SEVEN)).writes(&hex(SEVEN)),
            reduce("number 10,001", &hex("27 11")).refused(10),
        ];
        cases.extend(words_of_b1().into_iter().map(|(_, file)| reduce("b1 repeated", &file).writes(&file)));
        cases
    }
}
