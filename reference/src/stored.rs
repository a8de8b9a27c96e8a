//! Stored forms of words, with signs and generators apart (document 02, section 6).
//!
//! A stored form begins with three sizes of two bytes each: the number of letters, the bytes of the signs, and the
//! bytes of the generators. A row of sign bits and a row of generator bits follow. Zeros fill each row up to a whole
//! byte.

use crate::bits;
use crate::letter::{codes_of, letters_of, Letter};
use crate::questions::{first_no, first_refusal, Question};
use crate::word::{letters, room_answer, word_answer, write_file, Written, MOST_LETTERS};

/// The bytes of the longest stored form, and the fewest bytes that the output of `store` may have.
pub const MOST_STORED: usize = 5_006;

/// The bytes of the three sizes.
const HEAD: usize = 6;

/// The bits of a generator in a stored form, which is the generator's number minus one.
const GENERATOR: usize = 3;

/// The bits, filled with zeros up to a whole byte.
fn filled(mut bits: Vec<bool>) -> Vec<bool> {
    bits.resize(bits.len().next_multiple_of(8), false);
    bits
}

/// The sign bits of letters: 1 for an inverse.
fn sign_bits(letters: &[Letter]) -> Vec<bool> {
    filled(letters.iter().map(|letter| letter.inverse).collect())
}

/// The bits of the generators of letters.
fn generator_bits(letters: &[Letter]) -> Vec<bool> {
    let mut bits = Vec::new();
    for letter in letters {
        bits::push(&mut bits, letter.generator as u16 - 1, GENERATOR as u32);
    }
    filled(bits)
}

/// The stored form of a word with these letters, at most 10,000.
pub fn stored_form(codes: &[u8]) -> Vec<u8> {
    let letters = letters_of(codes);
    let rows = [sign_bits(&letters), generator_bits(&letters)];
    let mut form = Vec::new();
    for size in [letters.len(), rows[0].len() / 8, rows[1].len() / 8] {
        bits::push(&mut form, size as u16, 16);
    }
    form.extend(rows.concat());
    bits::to_bytes(&form)
}

/// The three sizes that a file of at least six bytes announces.
fn announced(file: &[u8]) -> [usize; 3] {
    let size = |place: usize| bits::number(&bits::of_bytes(&file[place..place + 2])).into();
    [size(0), size(2), size(4)]
}

/// The row of signs and the row of generators, each split into the bits of the letters and the filler after them. The
/// sizes must agree.
fn rows(file: &[u8]) -> [(Vec<bool>, Vec<bool>); 2] {
    let [letters, signs, _] = announced(file);
    let parts = [(&file[HEAD..HEAD + signs], 1), (&file[HEAD + signs..], GENERATOR)];
    parts.map(|(bytes, width)| {
        let mut bits = bits::of_bytes(bytes);
        let filler = bits.split_off(letters * width);
        (bits, filler)
    })
}

/// Do the two rows have the sizes that the number of letters needs?
fn sizes_agree(file: &[u8]) -> bool {
    let [letters, signs, generators] = announced(file);
    [signs, generators] == [letters, GENERATOR * letters].map(|bits| bits.div_ceil(8))
}

/// The questions of a stored form.
const QUESTIONS: [Question<[u8]>; 6] = [
    (28, |file| file.len() >= HEAD),
    (10, |file| announced(file)[0] <= MOST_LETTERS),
    (28, sizes_agree),
    (28, |file| file.len() == HEAD + announced(file)[1] + announced(file)[2]),
    (29, |file| rows(file)[1].0.chunks(GENERATOR).all(|three| three != [true; GENERATOR])),
    (29, |file| rows(file).iter().all(|(_, filler)| !filler.contains(&true))),
];

/// The answer to a stored form's questions: 28, 10, 28, 29, or 0.
pub fn stored_answer(file: &[u8]) -> u8 {
    first_no(&QUESTIONS, file)
}

/// The codes of the letters that an accepted stored form holds.
pub fn stored_letters(file: &[u8]) -> Vec<u8> {
    let [(signs, _), (generators, _)] = rows(file);
    let generators = bits::numbers(&generators, GENERATOR);
    let letter = |(inverse, number): (bool, u8)| Letter { generator: usize::from(number) + 1, inverse };
    codes_of(&signs.into_iter().zip(generators).map(letter).collect::<Vec<_>>())
}

/// Stores a word. Answers: 15 if the output has fewer than 5,006 bytes, then the word's 9 to 13.
pub fn store(word: &[u8], out: &mut [u8]) -> Written {
    let room = first_no(&[(15, |room: &usize| *room >= MOST_STORED)], &out.len());
    match first_refusal(&[room, word_answer(word)]) {
        0 => {
            let form = stored_form(&letters(word));
            out[..form.len()].copy_from_slice(&form);
            Written { answer: 0, bytes: form.len() }
        }
        answer => Written::refusal(answer),
    }
}

/// Restores a word from its stored form. Answers: 15, then 28, 10, 28, 29.
pub fn restore(stored: &[u8], out: &mut [u8]) -> Written {
    match first_refusal(&[room_answer(out), stored_answer(stored)]) {
        0 => write_file(&stored_letters(stored), out),
        answer => Written::refusal(answer),
    }
}
