//! Writes the stored form of a word.

use reference::stored::MOST_STORED;

use crate::operation::prelude::*;
use crate::operations::read_word::words_of_b1;

pub struct Store;

impl Operation for Store {
    fn facts(&self) -> Facts {
        let facts = Facts::of("store", &[15, 9, 10, 11, 12, 13], &[parts::WORD]);
        Facts { output: Output::Least(|_| MOST_STORED, 15), numbers: &["bytes"], share: 7, ..facts }
    }

    fn make(&self, maker: &mut Maker, _: Field, faults: &[u8], size: Size) -> Option<Parts> {
        Some(vec![maker.word(faults, size)])
    }

    fn call(&self, by: By, input: &Input) -> Outcome {
        let [word] = input.slices();
        input.lending(|out| {
            let (bytes, room) = (out.as_mut_ptr(), out.len());
            match by {
                // SAFETY: see `Operation::call`.
                By::Library => {
                    outcome!(unsafe { walnut_store(word.as_ptr(), word.len(), bytes, room) }, bytes)
                }
                By::Reference => outcome!(reference::store(word, out), bytes),
            }
        })
    }

    fn fixed(&self) -> Vec<Fixed> {
        let mut cases: Vec<Fixed> = typed_pairs()
            .into_iter()
            .map(|(name, word, form)| Fixed::of(&Store, name, &[&word]).writes(&form))
            .collect();
        cases.push(Fixed::of(&Store, "room of 5,005 bytes", &[&hex("00 00")]).room(5_005).refused(15));
        cases.push(Fixed::of(&Store, "number 10,001", &[&hex("27 11")]).refused(10));
        cases
    }
}

/// Words and their stored forms, worked out by hand from document 02, section 6: the name, the word and the stored
/// form.
pub fn typed_pairs() -> Vec<(&'static str, Vec<u8>, Vec<u8>)> {
    let mut pairs = [
        // signs 0100101 and a zero bit; generators 000 001 010 011 100 101 110 and three zero bits
        ("the seven letters", SEVEN, "00 07 00 01 00 03 4A 05 39 70"),
        ("no letters", "00 00", "00 00 00 00 00 00"),
        // sign 1, generator 110
        ("b7⁻¹", "00 01 E0", "00 01 00 01 00 01 80 C0"),
        // 110 eight times, and no filler
        ("eight letters", "00 08 EE EE EE EE", "00 08 00 01 00 03 FF DB 6D B6"),
        ("nine letters", "00 09 EE EE EE EE E0", "00 09 00 02 00 04 FF 80 DB 6D B6 C0"),
    ]
    .map(|(name, word, form)| (name, hex(word), hex(form)))
    .to_vec();
    // the sign and the generator of b1 are zeros
    let longest = words_of_b1().pop().expect("there are words of b1").1;
    pairs.push(("10,000 letters", longest, [hex("27 10 04 E2 0E A6"), vec![0; 5_000]].concat()));
    pairs
}
