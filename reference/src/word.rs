//! Word files, also called signatures (document 01, "Files"; source 000, sections 10 and 10.2).
//!
//! A word file holds the number of letters in two bytes, the high byte first. The codes follow, two to a byte, the
//! earlier code in the high half. If the number of letters is odd, the last half byte is 0.

use crate::bits;
use crate::letter::is_letter;
use crate::questions::{first_no, first_refusal, Question};

/// The most letters that a word may have.
pub const MOST_LETTERS: usize = 10_000;

/// The bytes of the longest word file, and the fewest bytes that the output of a writer of words may have.
pub const MOST_BYTES: usize = 5_002;

/// The bytes of the number of letters, which stands before the codes.
const HEAD: usize = 2;

/// The answer to a word file's questions, and its number of letters. On a refusal `letters` is 0.
#[derive(Clone, Copy, Debug, PartialEq, Eq)]
pub struct Word {
    pub answer: u8,
    pub letters: usize,
}

/// The answer of a writer of words, and the number of bytes that it wrote. On a refusal `bytes` is 0.
#[derive(Clone, Copy, Debug, PartialEq, Eq)]
pub struct Written {
    pub answer: u8,
    pub bytes: usize,
}

impl Written {
    /// The result of a writer of words on a refusal.
    pub fn refusal(answer: u8) -> Written {
        Written { answer, bytes: 0 }
    }
}

/// The number of letters that a file of at least two bytes announces.
fn announced(file: &[u8]) -> usize {
    bits::number(&bits::of_bytes(&file[..HEAD])).into()
}

/// All half bytes after the first two bytes.
fn half_bytes(file: &[u8]) -> Vec<u8> {
    bits::numbers(&bits::of_bytes(&file[HEAD..]), 4)
}

/// The half byte at a place, counted from 0 after the first two bytes.
fn half_byte(file: &[u8], place: usize) -> u8 {
    let byte = file[HEAD + place / 2];
    bits::numbers(&bits::of_bytes(&[byte]), 4)[place % 2]
}

/// The length of a word file with this number of letters, in bytes.
fn file_length(letters: usize) -> usize {
    HEAD + letters.div_ceil(2)
}

/// The questions of a word file.
const QUESTIONS: [Question<[u8]>; 5] = [
    (9, |file| file.len() >= HEAD),
    (10, |file| announced(file) <= MOST_LETTERS),
    (11, |file| file.len() == file_length(announced(file))),
    (12, |file| half_bytes(file)[..announced(file)].iter().all(|code| is_letter(*code))),
    (13, |file| half_bytes(file)[announced(file)..].iter().all(|filler| *filler == 0)),
];

/// The questions about codes, one to a byte, before they are written.
const CODE_QUESTIONS: [Question<[u8]>; 2] =
    [(10, |codes| codes.len() <= MOST_LETTERS), (12, |codes| codes.iter().all(|code| is_letter(*code)))];

/// The answer to a word file's questions: 9 to 13, or 0.
pub fn word_answer(file: &[u8]) -> u8 {
    first_no(&QUESTIONS, file)
}

/// The answer to the first question of every writer of words: 0 if the output can hold the longest word file, otherwise
/// 15.
pub fn room_answer(out: &[u8]) -> u8 {
    first_no(&[(15, |room: &usize| *room >= MOST_BYTES)], &out.len())
}

/// Reads a word. Answers: 9 to 13.
pub fn read_word(file: &[u8]) -> Word {
    match word_answer(file) {
        0 => Word { answer: 0, letters: announced(file) },
        answer => Word { answer, letters: 0 },
    }
}

/// The part of the file that holds the codes, after the two bytes of the number of letters. It is empty on a refusal.
pub fn code_part(file: &[u8]) -> &[u8] {
    match word_answer(file) {
        0 => &file[HEAD..],
        _ => &[],
    }
}

/// The codes of the word's letters, first to last. On a refusal there are none.
pub fn letters(file: &[u8]) -> Vec<u8> {
    let word = read_word(file);
    let mut codes = bits::numbers(&bits::of_bytes(code_part(file)), 4);
    codes.truncate(word.letters);
    codes
}

/// The code of the letter at a place, counted from 0. It is `None` past the last letter and on a refusal.
pub fn letter_at(file: &[u8], place: usize) -> Option<u8> {
    letters(file).get(place).copied()
}

/// A reader of words: it keeps the file and the place of the next letter. The file is an accepted one, or empty.
#[derive(Clone, Copy, Debug)]
pub struct WordReader<'a> {
    file: &'a [u8],
    place: usize,
}

impl<'a> WordReader<'a> {
    /// The answer, and a reader at the first letter. On a refusal the reader has no letters.
    pub fn open(file: &'a [u8]) -> (u8, WordReader<'a>) {
        let answer = word_answer(file);
        let file = if answer == 0 { file } else { &[] };
        (answer, WordReader { file, place: 0 })
    }

    /// The number of letters of the whole word, read or not.
    pub fn letters(&self) -> usize {
        if self.file.is_empty() {
            0
        } else {
            announced(self.file)
        }
    }

    /// The next letter's place, counted from 0.
    pub fn place(&self) -> usize {
        self.place
    }

    /// Reads the code of the next letter and moves one place on. After the last letter it returns `None` and does not
    /// move.
    pub fn next_letter(&mut self) -> Option<u8> {
        if self.place == self.letters() {
            return None;
        }
        let code = half_byte(self.file, self.place);
        self.place += 1;
        Some(code)
    }

    /// The part of the caller's file that holds the codes. It is empty on a refusal.
    pub fn code_part(&self) -> &'a [u8] {
        code_part(self.file)
    }
}

/// The file of a word with these letters, at most 10,000.
pub fn word_file(codes: &[u8]) -> Vec<u8> {
    let mut bits = Vec::new();
    bits::push(&mut bits, codes.len() as u16, 16);
    for code in codes {
        bits::push(&mut bits, (*code).into(), 4);
    }
    if codes.len() % 2 == 1 {
        bits::push(&mut bits, 0, 4);
    }
    bits::to_bytes(&bits)
}

/// Writes the word's file into the first bytes of the output and returns their number. Every writer of words ends with
/// this step. The output must have room for the longest word.
pub fn write_file(codes: &[u8], out: &mut [u8]) -> Written {
    let file = word_file(codes);
    out[..file.len()].copy_from_slice(&file);
    Written { answer: 0, bytes: file.len() }
}

/// Writes a word from codes, one to a byte. Answers: 15, 10, 12.
pub fn write_word(codes: &[u8], out: &mut [u8]) -> Written {
    match first_refusal(&[room_answer(out), first_no(&CODE_QUESTIONS, codes)]) {
        0 => write_file(codes, out),
        answer => Written::refusal(answer),
    }
}
