//! The Y dialect (document 02, section 11; source 000, section 5.3.2 and Appendix A).
//!
//! The code stores parts of 7 as the generators at which a part ends. It converts a word letter by letter. Pair
//! replacement searches the relations of Appendix A, which are written as signed numbers.

use crate::letter::{codes_of, letters_of, Letter};
use crate::questions::{first_no, first_refusal, Question};
use crate::word::{letters, room_answer, word_answer, write_file, Written, MOST_LETTERS};

/// The direction of a conversion: from Artin letters to Y letters, or back.
#[derive(Clone, Copy, Debug, PartialEq, Eq)]
pub enum Way {
    ToY,
    FromY,
}

/// The questions about parts of 7: there is a part, no part is 0, and the sum is 7.
const PARTS: [Question<[u8]>; 3] = [
    (33, |parts| !parts.is_empty()),
    (33, |parts| !parts.contains(&0)),
    (33, |parts| parts.iter().map(|part| usize::from(*part)).sum::<usize>() == 7),
];

/// The generators at which a part ends.
fn ends(parts: &[u8]) -> Vec<usize> {
    let sums = parts.iter().scan(0, |sum, part| {
        *sum += usize::from(*part);
        Some(*sum)
    });
    sums.collect()
}

/// The inverse of a word.
pub fn inverse(word: &[Letter]) -> Vec<Letter> {
    word.iter().rev().map(|letter| letter.inverted()).collect()
}

/// The word in the other dialect for a generator. `ends` has the generators at which a part ends.
fn generator_word(way: Way, generator: usize, ends: &[usize]) -> Vec<Letter> {
    let letter = |generator| Letter { generator, inverse: false };
    let end = *ends.iter().find(|end| generator <= **end).expect("parts of 7 hold every generator");
    match way {
        Way::ToY if generator == end => vec![letter(generator)],
        Way::ToY => vec![letter(generator), letter(generator + 1).inverted()],
        Way::FromY => (generator..=end).map(letter).collect(),
    }
}

/// The word in the other dialect, not freely reduced.
pub fn converted(way: Way, word: &[Letter], parts: &[u8]) -> Vec<Letter> {
    let ends = ends(parts);
    let mut new = Vec::new();
    for letter in word {
        let run = generator_word(way, letter.generator, &ends);
        new.extend(if letter.inverse { inverse(&run) } else { run });
    }
    new
}

/// The answer for a new word: 34 if it has more than 10,000 letters, otherwise 0.
fn new_answer(new: &[Letter]) -> u8 {
    first_no(&[(34, |letters: &usize| *letters <= MOST_LETTERS)], &new.len())
}

/// Writes a new word, or refuses it with 34.
fn write_new(new: &[Letter], out: &mut [u8]) -> Written {
    match new_answer(new) {
        0 => write_file(&codes_of(new), out),
        answer => Written::refusal(answer),
    }
}

/// Converts a word file to the other dialect. Answers: 15, the word's 9 to 13, 33, 34.
pub fn convert(way: Way, word: &[u8], parts: &[u8], out: &mut [u8]) -> Written {
    match first_refusal(&[room_answer(out), word_answer(word), first_no(&PARTS, parts)]) {
        0 => write_new(&converted(way, &letters_of(&letters(word)), parts), out),
        answer => Written::refusal(answer),
    }
}

/// Converts a word file from Artin letters to Y letters.
pub fn to_y(word: &[u8], parts: &[u8], out: &mut [u8]) -> Written {
    convert(Way::ToY, word, parts, out)
}

/// Converts a word file from Y letters to Artin letters.
pub fn from_y(word: &[u8], parts: &[u8], out: &mut [u8]) -> Written {
    convert(Way::FromY, word, parts, out)
}

/// Appendix A, row by row: the numbers of the Y generators. A negative number is an inverse.
pub const RELATIONS: [&str; 79] = [
    "4 7 -4 -7",
    "-7 4 7 -4",
    "7 4 -7 -4",
    "2 1 4 -1 -1",
    "3 2 4 -2 -2",
    "6 5 7 -5 -5",
    "7 6 7 -6 -6",
    "-1 2 1 4 -1",
    "-2 3 2 4 -2",
    "-5 6 5 7 -5",
    "-6 7 6 7 -6",
    "1 1 -4 -1 -2",
    "2 2 -4 -2 -3",
    "5 5 -7 -5 -6",
    "6 6 -7 -6 -7",
    "-2 1 1 -4 -1",
    "-3 2 2 -4 -2",
    "-6 5 5 -7 -5",
    "-7 6 6 -7 -6",
    "3 3 -4 -3 -4",
    "6 6 -7 -6 -7",
    "-4 3 3 -4 -3",
    "-7 6 6 -7 -6",
    "4 3 4 -3 -3",
    "7 6 7 -6 -6",
    "1 -2 4 2 -1 -4",
    "2 -3 4 3 -2 -4",
    "4 6 -7 -4 7 -6",
    "1 -2 7 2 -1 -7",
    "2 -3 7 3 -2 -7",
    "3 -4 7 4 -3 -7",
    "5 -6 7 6 -5 -7",
    "-4 1 -2 4 2 -1",
    "-4 2 -3 4 3 -2",
    "-6 4 6 -7 -4 7",
    "-7 1 -2 7 2 -1",
    "-7 2 -3 7 3 -2",
    "-7 3 -4 7 4 -3",
    "-7 5 -6 7 6 -5",
    "4 1 -2 -4 2 -1",
    "4 2 -3 -4 3 -2",
    "6 -7 4 7 -6 -4",
    "7 1 -2 -7 2 -1",
    "7 2 -3 -7 3 -2",
    "7 3 -4 -7 4 -3",
    "7 5 -6 -7 6 -5",
    "1 -3 1 -2 3 -1 3 -2",
    "2 -4 2 -3 4 -2 4 -3",
    "5 -7 5 -6 7 -5 7 -6",
    "-2 1 -3 1 -2 3 -1 3",
    "-3 2 -4 2 -3 4 -2 4",
    "-6 5 -7 5 -6 7 -5 7",
    "2 -3 1 -3 2 -1 3 -1",
    "3 -4 2 -4 3 -2 4 -2",
    "6 -7 5 -7 6 -5 7 -5",
    "1 -2 3 -4 2 -1 4 -3",
    "1 -2 5 -6 2 -1 6 -5",
    "2 -3 5 -6 3 -2 6 -5",
    "3 -4 5 -6 4 -3 6 -5",
    "1 -2 6 -7 2 -1 7 -6",
    "2 -3 6 -7 3 -2 7 -6",
    "3 -4 6 -7 4 -3 7 -6",
    "-3 1 -2 3 -4 2 -1 4",
    "-5 1 -2 5 -6 2 -1 6",
    "-5 2 -3 5 -6 3 -2 6",
    "-5 3 -4 5 -6 4 -3 6",
    "-6 1 -2 6 -7 2 -1 7",
    "-6 2 -3 6 -7 3 -2 7",
    "-6 3 -4 6 -7 4 -3 7",
    "3 -4 1 -2 4 -3 2 -1",
    "5 -6 1 -2 6 -5 2 -1",
    "5 -6 2 -3 6 -5 3 -2",
    "5 -6 3 -4 6 -5 4 -3",
    "6 -7 1 -2 7 -6 2 -1",
    "6 -7 2 -3 7 -6 3 -2",
    "6 -7 3 -4 7 -6 4 -3",
    "4 5 -6 4 6 -5 -4 6 -5",
    "-5 4 5 -6 4 6 -5 -4 6",
    "5 -6 4 5 -6 -4 6 -5 -4",
];

/// The letters of a row of [`RELATIONS`].
pub fn relation(row: &str) -> Vec<Letter> {
    let letter = |text: &str| {
        let number: isize = text.parse().expect("a signed number");
        Letter { generator: number.unsigned_abs(), inverse: number < 0 }
    };
    row.split(' ').map(letter).collect()
}

/// The letters that replace a pair. The first row that contains the pair decides, at the first place of the pair in
/// that row. The replacement is the inverse of the letters before the pair, then the inverse of the letters after it.
/// The result is `None` if no row contains the pair.
pub fn replacement(pair: &[Letter]) -> Option<Vec<Letter>> {
    RELATIONS.iter().map(|row| relation(row)).find_map(|row| {
        let place = row.windows(2).position(|two| two == pair)?;
        let (before, rest) = row.split_at(place);
        Some([inverse(before), inverse(&rest[2..])].concat())
    })
}

/// Replaces the pair at a place of a Y word, for parts 4 and 3. The word stays as it is if no row of Appendix A
/// contains the pair. Answers: 15, the word's 9 to 13, 22, 34.
pub fn replace_pair(word: &[u8], place: usize, out: &mut [u8]) -> Written {
    let asked = first_refusal(&[room_answer(out), word_answer(word)]);
    if asked != 0 {
        return Written::refusal(asked);
    }
    let mut new = letters_of(&letters(word));
    let Some(pair) = place.checked_add(2).and_then(|end| new.get(place..end)).map(<[Letter]>::to_vec) else {
        return Written::refusal(22);
    };
    if let Some(other) = replacement(&pair) {
        new.splice(place..place + 2, other);
    }
    write_new(&new, out)
}
