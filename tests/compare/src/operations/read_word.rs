//! The word reader.

use crate::operation::prelude::*;

pub struct ReadWord;

impl Operation for ReadWord {
    fn facts(&self) -> Facts {
        let facts = Facts::of("read_word", &[9, 10, 11, 12, 13], &[parts::WORD]);
        Facts { numbers: &["letters"], share: 12, ..facts }
    }

    fn make(&self, maker: &mut Maker, _: Field, faults: &[u8], size: Size) -> Option<Parts> {
        Some(vec![maker.word(faults, size)])
    }

    fn call(&self, by: By, input: &Input) -> Outcome {
        let [file] = input.slices();
        match by {
            // SAFETY: see `Operation::call`.
            By::Library => outcome!(unsafe { walnut_read_word(file.as_ptr(), file.len()) }, letters),
            By::Reference => outcome!(reference::read_word(file), letters),
        }
    }

    fn fixed(&self) -> Vec<Fixed> {
        let read = |name: &str, file: &[u8]| Fixed::of(&ReadWord, name, &[file]);
        let mut cases = vec![
            read("seven letters", &hex(SEVEN)).number(7),
            read("number 10,001", &hex("27 11")).refused(10),
            read("filler 1", &hex("00 07 09 23 C5 E1")).refused(13),
        ];
        let repeated = |(letters, file): (usize, Vec<u8>)| read("b1 repeated", &file).number(letters as i64);
        cases.extend(words_of_b1().into_iter().map(repeated));
        cases
    }
}

/// Words of b1 repeated, each with its number of letters. The code of b1 is 0. Source 000, section 10, writes 255 as
/// 00 FF and 256 as 01 00.
pub fn words_of_b1() -> Vec<(usize, Vec<u8>)> {
    let heads = [(0, "00 00"), (255, "00 FF"), (256, "01 00"), (10_000, "27 10")];
    let file = |(letters, head): (usize, &str)| {
        let mut file = hex(head);
        file.resize(2 + letters.div_ceil(2), 0);
        (letters, file)
    };
    heads.into_iter().map(file).collect()
}
