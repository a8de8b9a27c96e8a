//! The program `crossings`, with a word on standard input or in a file. It must write a line for each two labels, with
//! the number that the reference finds. If the reference refuses the word, it must write the line of the reference's
//! answer.

use std::ffi::OsStr;
use std::path::Path;

use reference::crossing::windings;
use reference::word::{letters, word_answer, word_file};

use crate::make::Maker;
use crate::programs::{odd_words, ran, Checked, Counts};
use crate::show;

/// The most bytes that the program reads: one more than the longest word file.
const INPUT: usize = 5_003;

/// What the program must write.
fn expected(input: &[u8]) -> String {
    let file = &input[..input.len().min(INPUT)];
    match word_answer(file) {
        0 => {
            windings(&letters(file)).into_iter().map(|(a, b, number)| format!("{a} {b} {number}\n")).collect()
        }
        answer => format!("answer {answer}\n"),
    }
}

/// Runs the program on a word file, which arrives in pieces. The first run has no argument. The second run names
/// standard input as a file.
fn compare(program: &Path, counts: &mut Counts, pieces: &[&[u8]]) -> Checked {
    let file = pieces.concat();
    let expected = expected(&file);
    let named: [&OsStr; 1] = ["/dev/stdin".as_ref()];
    for arguments in [&named[..0], &named[..]] {
        let output = ran(program, arguments, pieces)?;
        let found = String::from_utf8_lossy(&output.stdout);
        if found != expected || !output.stderr.is_empty() {
            let lines = found.lines().map(Some).chain([None]).zip(expected.lines().map(Some).chain([None]));
            let line = lines.into_iter().find(|(found, expected)| found != expected);
            let (name, hex) = (program.display(), show::hex(&file));
            return Err(format!(
                "{name} {arguments:?}, on {hex}: written line and expected line: {line:?}\n"
            ));
        }
    }
    counts.count(word_answer(&file));
    Ok(())
}

/// Words of one repeated letter, so that numbers of one to five digits occur, with either sign.
fn repeated(program: &Path, counts: &mut Counts) -> Checked {
    for code in [0, 6, 8, 14] {
        for letters in [9, 10, 99, 100, 999, 1_000, 9_999, 10_000] {
            compare(program, counts, &[&word_file(&vec![code; letters])])?;
        }
    }
    Ok(())
}

/// Words of each length up to 40, words of 255, 256, 9,999 and 10,000 letters, and each of these words with more bytes
/// after it. Then refused words with each fault and each two faults, and damaged words.
pub fn check(folder: &Path, maker: &mut Maker) -> Checked<String> {
    let program = &folder.join("crossings");
    let counts = &mut Counts::default();
    repeated(program, counts)?;
    for letters in (0..=40).chain([255, 256, 9_999, 10_000]) {
        let file = word_file(&maker.random.word(letters));
        compare(program, counts, &[&file])?;
        compare(program, counts, &[&file[..1], &file[1..]])?;
        for more in [1, 2, 70_000] {
            compare(program, counts, &[&file, &vec![0; more]])?;
        }
    }
    for file in odd_words(maker) {
        compare(program, counts, &[&file])?;
    }
    counts.summary("crossings", &[0, 9, 10, 11, 12, 13])
}
