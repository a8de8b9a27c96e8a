//! Pair replacement.

use reference::dialect::replacement;
use reference::letter::{letters_of, Letter};
use reference::word::{word_file, MOST_LETTERS};

use crate::operation::prelude::*;

pub struct ReplacePair;

/// The place as eight bytes, high first, so that every `size_t` can be written.
const PLACE: Part = Part { name: "place", form: Form::Fixed(8) };

impl Operation for ReplacePair {
    fn facts(&self) -> Facts {
        let questions = &[15, 9, 10, 11, 12, 13, 22, 34];
        let facts = Facts::of("replace_pair", questions, &[parts::WORD, PLACE]);
        Facts { output: WORDS, numbers: &["bytes"], slow: &[34], share: 8, ..facts }
    }

    /// For 22, the place is that of the last letter or after it. For 34, the word has 9,999 or 10,000 letters, and the
    /// pair is y1 y2⁻¹, which becomes four letters.
    fn make(&self, maker: &mut Maker, _: Field, faults: &[u8], size: Size) -> Option<Parts> {
        let mut codes = maker.codes(if faults.contains(&34) { Size::Long } else { size });
        let random = &mut maker.random;
        if faults.contains(&34) {
            codes.resize(MOST_LETTERS - random.below(2), 0);
        }
        while codes.len() < 2 {
            codes.push(random.letter());
        }
        let mut place = random.within(0, codes.len() - 2);
        if faults.contains(&34) {
            codes[place..place + 2].copy_from_slice(&[0, 9]);
        } else if new_length(&codes, place) > MOST_LETTERS {
            codes.truncate(MOST_LETTERS - 5);
            place = place.min(codes.len() - 2);
        }
        let word = files::word(random, &codes, faults);
        if faults.contains(&22) {
            place = random.pick(&[codes.len() - 1, codes.len(), 10_000, 1 << 32, usize::MAX - 1, usize::MAX]);
        }
        Some(vec![word, place.to_be_bytes().to_vec()])
    }

    fn call(&self, by: By, input: &Input) -> Outcome {
        let ([word, _], place) = (input.slices(), usize::from_be_bytes(input.array(1)));
        let (codes, n) = (word.as_ptr(), word.len());
        input.lending(|out| {
            let (bytes, room) = (out.as_mut_ptr(), out.len());
            match by {
                // SAFETY: see `Operation::call`.
                By::Library => outcome!(unsafe { walnut_replace_pair(codes, n, place, bytes, room) }, bytes),
                By::Reference => outcome!(reference::replace_pair(word, place, out), bytes),
            }
        })
    }

    fn fixed(&self) -> Vec<Fixed> {
        let mut cases = vec![
            // Row 1 is y4 y7 y4⁻¹ y7⁻¹. In this row y4 comes before the pair y7 y4⁻¹, and y7⁻¹ comes after it.
            case("y7 y4⁻¹", "00 02 6B", 0).writes(&hex("00 02 B6")),
            // Row 26 is y1 y2⁻¹ y4 y2 y1⁻¹ y4⁻¹. It is used because it comes before row 74, which also has the pair.
            case("y1 y2⁻¹ inside a word", "00 04 50 9D", 1).writes(&hex("00 06 53 09 BD")),
            // Row 77 is the first row with the pair y4 y5.
            case("y4 y5", "00 02 34", 0).writes(&hex("00 07 4D 34 DB 50")),
            case("no row holds y1 y2", "00 03 01 10", 0).writes(&hex("00 03 01 10")),
            case("a word before a place", "00", 9).refused(9),
        ];
        let places = [1, 2, 3, 65_536, 1 << 32, usize::MAX - 1, usize::MAX];
        cases.extend(places.map(|place| case("past the last pair", "00 02 6B", place).refused(22)));
        cases.extend(["00 00", "00 01 00"].map(|word| case("under two letters", word, 0).refused(22)));
        let full = [hex("27 10"), [0x09].repeat(5_000)].concat();
        let place = 0_usize.to_be_bytes();
        cases.push(Fixed::of(&ReplacePair, "a full word", &[&full, &place]).refused(34));
        let most = [hex("27 0E"), [0x09].repeat(4_999)].concat();
        let new = [hex("27 10 30 9B"), [0x09].repeat(4_998)].concat();
        cases.push(Fixed::of(&ReplacePair, "two letters under a full word", &[&most, &place]).writes(&new));
        cases
    }

    /// Every word of three letters at the places 0 to 3.
    fn small(&self, run: &mut Run) -> Checked {
        let codes = || (0..16).filter(|code| Letter::from_code(*code).is_some());
        for [a, b] in codes().flat_map(|a| codes().map(move |b| [a, b])) {
            for (c, place) in codes().flat_map(|c| [0, 1, 2, 3_usize].map(|place| (c, place))) {
                let expected = if place < 2 { 0 } else { 22 };
                let parts = vec![word_file(&[a, b, c]), place.to_be_bytes().to_vec()];
                run.parts(&ReplacePair, parts, Some(expected))?;
            }
        }
        Ok(())
    }
}

/// The number of letters that the word has when the pair at this place is replaced.
fn new_length(codes: &[u8], place: usize) -> usize {
    let other = replacement(&letters_of(&codes[place..place + 2])).map_or(2, |other| other.len());
    codes.len() - 2 + other
}

fn case(name: &str, word: &str, place: usize) -> Fixed {
    Fixed::of(&ReplacePair, &format!("{name}, place {place}"), &[&hex(word), &place.to_be_bytes()])
}
