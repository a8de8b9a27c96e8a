//! The program `letters`. It must write the letters that the reference reads in a word file: each letter by its place,
//! and the second letter by the reader of words.

use std::path::Path;

use reference::word::{code_part, letters, word_answer, word_file, WordReader};

use crate::make::Maker;
use crate::programs::{odd_words, ran, Checked, Counts};
use crate::show;

/// The end of a line: a letter, or that there is no letter.
fn letter(code: Option<u8>) -> String {
    match code {
        Some(code) => format!(" yes {code:02x}"),
        None => " no 00".to_string(),
    }
}

/// The output that the program must write: each place up to the first without a letter, one place more, and the second
/// letter by the reader of words.
fn expected(file: &[u8]) -> String {
    let codes: String = code_part(file).iter().map(|byte| format!(" {byte:02x}")).collect();
    let by_place = letters(file);
    let mut text = format!("codes{codes}\n");
    for place in 0..by_place.len() + 2 {
        text += &format!("place {place}{}\n", letter(by_place.get(place).copied()));
    }
    let (_, mut reader) = WordReader::open(file);
    reader.next_letter();
    text + &format!("second{}\n", letter(reader.next_letter()))
}

/// Runs the program on a word file.
fn compare(program: &Path, counts: &mut Counts, file: &[u8]) -> Checked {
    let output = ran(program, &[], &[file])?;
    let (found, expected) = (String::from_utf8_lossy(&output.stdout), expected(file));
    if found != expected || !output.stderr.is_empty() {
        let lines = found.lines().map(Some).chain([None]).zip(expected.lines().map(Some).chain([None]));
        let line = lines.into_iter().find(|(found, expected)| found != expected);
        return Err(format!("letters, on {}: written line and expected line: {line:?}\n", show::hex(file)));
    }
    counts.count(word_answer(file));
    Ok(())
}

/// Words of each length up to 40, and of 255, 256, 9,999 and 10,000 letters. Then refused words with each fault and
/// each two faults, words with letters that cancel, and damaged words.
pub fn check(program: &Path, maker: &mut Maker) -> Checked<String> {
    let counts = &mut Counts::default();
    for letters in (0..=40).chain([255, 256, 9_999, 10_000]) {
        let codes = maker.random.word(letters);
        compare(program, counts, &word_file(&codes))?;
    }
    for file in odd_words(maker) {
        compare(program, counts, &file)?;
    }
    counts.summary("letters", &[0, 9, 10, 11, 12, 13])
}
