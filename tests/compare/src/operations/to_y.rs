//! Artin to Y. Also the functions that `from_y` shares.

use reference::dialect::{converted, Way};
use reference::letter::{letters_of, Letter};
use reference::testkit::compositions;
use reference::word::{word_file, MOST_LETTERS};

use crate::operation::prelude::*;

pub struct ToY;

/// The questions of both conversions.
pub const QUESTIONS: &[u8] = &[15, 9, 10, 11, 12, 13, 33, 34];

/// Numbers over 0 whose sum is 7.
pub const PARTS: Part = Part { name: "parts", form: Form::Bytes };

/// The facts of a conversion.
pub fn facts(name: &'static str) -> Facts {
    let facts = Facts::of(name, QUESTIONS, &[parts::WORD, PARTS]);
    Facts { output: WORDS, numbers: &["bytes"], slow: &[34], share: 8, ..facts }
}

impl Operation for ToY {
    fn facts(&self) -> Facts {
        facts("to_y")
    }

    fn make(&self, maker: &mut Maker, _: Field, faults: &[u8], size: Size) -> Option<Parts> {
        make(Way::ToY, maker, faults, size)
    }

    fn call(&self, by: By, input: &Input) -> Outcome {
        call(Way::ToY, by, input)
    }

    fn fixed(&self) -> Vec<Fixed> {
        let case = |name: &str, word: &str, parts: &[u8]| Fixed::of(&ToY, name, &[&hex(word), parts]);
        let mut cases = vec![
            // b1 b2 becomes y1 y2⁻¹ y2 y3⁻¹. The conversion does not cancel y2⁻¹ y2.
            case("b1 b2", "00 02 01", &[4, 3]).writes(&hex("00 04 09 1A")),
            // b2⁻¹ is the inverse of y2 y3⁻¹
            case("b2⁻¹", "00 01 90", &[4, 3]).writes(&hex("00 02 29")),
            case("b4 at the part's end", "00 01 30", &[4, 3]).writes(&hex("00 01 30")),
            case("b4 inside one part", "00 01 30", &[7]).writes(&hex("00 02 3C")),
            case("seven parts", SEVEN, &[1; 7]).writes(&hex(SEVEN)),
            case("a word before parts", "00", &[]).refused(9),
        ];
        let doubled = [hex("13 88"), vec![0; 2_500]].concat();
        // b1 b1 becomes y1 y2⁻¹ y1 y2⁻¹.
        let full = [hex("27 10"), vec![0x09; 5_000]].concat();
        cases.push(Fixed::of(&ToY, "5,000 letters b1", &[&doubled, &[4, 3]]).writes(&full));
        let more = [hex("13 89"), vec![0; 2_501]].concat();
        cases.push(Fixed::of(&ToY, "5,001 letters b1", &[&more, &[4, 3]]).refused(34));
        cases.push(Fixed::of(&ToY, "5,001 letters b1 and parts of 8", &[&more, &[4, 4]]).refused(33));
        cases.extend(no_parts().into_iter().map(|parts| case("no parts of 7", "00 00", &parts).refused(33)));
        cases
    }

    fn small(&self, run: &mut Run) -> Checked {
        small(&ToY, run)
    }
}

/// Calls a conversion of the library, or of the reference.
pub fn call(way: Way, by: By, input: &Input) -> Outcome {
    let [word, parts] = input.slices();
    let (codes, n, list, m) = (word.as_ptr(), word.len(), parts.as_ptr(), parts.len());
    input.lending(|out| {
        let (bytes, room) = (out.as_mut_ptr(), out.len());
        // SAFETY: see `Operation::call`.
        match (by, way) {
            (By::Library, Way::ToY) => {
                outcome!(unsafe { walnut_to_y(codes, n, list, m, bytes, room) }, bytes)
            }
            (By::Library, Way::FromY) => {
                outcome!(unsafe { walnut_from_y(codes, n, list, m, bytes, room) }, bytes)
            }
            (By::Reference, Way::ToY) => outcome!(reference::to_y(word, parts, out), bytes),
            (By::Reference, Way::FromY) => outcome!(reference::from_y(word, parts, out), bytes),
        }
    })
}

/// A word and parts of 7 for a conversion. For 34 a long word with the single part 7.
pub fn make(way: Way, maker: &mut Maker, faults: &[u8], size: Size) -> Option<Parts> {
    let long = faults.contains(&34);
    let mut codes = maker.codes(if long { Size::Long } else { size });
    let random = &mut maker.random;
    let all = compositions(7);
    let mut parts = if long { vec![7] } else { all[random.below(64)].clone() };
    let letters = |codes: &[u8], parts: &[u8]| converted(way, &letters_of(codes), parts).len();
    if long && letters(&codes, &parts) <= MOST_LETTERS {
        return None;
    }
    while !long && letters(&codes, &parts) > MOST_LETTERS {
        codes.truncate(codes.len() / 2);
    }
    if faults.contains(&33) {
        parts = random.pick(&[0, 1, 2]).eq(&0).then(Vec::new).unwrap_or_else(|| spoiled(random, parts));
    }
    Some(vec![files::word(random, &codes, faults), parts])
}

/// Parts changed so that they have a zero or another sum.
fn spoiled(random: &mut reference::testkit::Random, mut parts: Vec<u8>) -> Vec<u8> {
    let place = random.below(parts.len() as u64);
    match random.below(4) {
        0 => parts.insert(place, 0),
        1 => parts[place] = parts[place].wrapping_add(random.within(1, 255) as u8),
        2 => {
            parts.remove(place);
        }
        // The sum is 263, which is 7 modulo 256.
        _ => parts.extend([128, 128]),
    }
    parts
}

/// Lists that are no parts of 7: the sum is not 7, or a number is 0.
pub fn no_parts() -> Vec<Vec<u8>> {
    let long = [vec![1; 263], vec![7; 40], vec![1; 8]];
    let short: [&[u8]; 10] =
        [&[], &[0], &[7, 0], &[0, 7], &[4, 0, 3], &[4, 4], &[3, 3], &[255, 8], &[8, 255], &[254, 5, 4]];
    short.map(<[u8]>::to_vec).into_iter().chain(long).collect()
}

/// Every word of two letters with each list of parts of 7. Then one word with every list of up to three numbers below 9
/// as parts.
pub fn small(operation: &'static dyn Operation, run: &mut Run) -> Checked {
    let codes = || (0..16).filter(|code| Letter::from_code(*code).is_some());
    for parts in compositions(7) {
        for word in codes().flat_map(|a| codes().map(move |b| word_file(&[a, b]))) {
            run.parts(operation, vec![word, parts.clone()], Some(0))?;
        }
    }
    let lists = (0..729_u32).flat_map(|n| {
        let three = [n / 81, n / 9 % 9, n % 9].map(|part| part as u8);
        (0..=3).map(move |length| three[..length].to_vec())
    });
    for parts in lists {
        let sum: u32 = parts.iter().map(|part| u32::from(*part)).sum();
        let expected = if sum == 7 && !parts.contains(&0) { 0 } else { 33 };
        run.parts(operation, vec![hex(SEVEN), parts], Some(expected))?;
    }
    Ok(())
}
