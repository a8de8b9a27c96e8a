//! Compares the programs with the reference. Each program is started on an input, and its output must be what the
//! reference gives for the same bytes.

mod crossings;
mod desk;
mod letters;
mod shelves;
mod spread;
mod words;

use std::collections::BTreeMap;
use std::ffi::OsStr;
use std::io::{self, ErrorKind, Write};
use std::path::Path;
use std::process::{Command, Output, Stdio};
use std::thread;
use std::time::Duration;

use reference::word::word_file;

use crate::make::{files, Maker};
use crate::operation::Operation;
use crate::operations::read_word::ReadWord;

/// The result of a check: a value, or an account of the failure.
type Checked<T = ()> = Result<T, String>;

/// The time between two pieces of a program's input.
const PAUSE: Duration = Duration::from_millis(2);

/// Starts a program with these arguments and writes its input piece by piece. A program need not read all of its input.
fn run(program: &Path, arguments: &[&OsStr], pieces: &[&[u8]]) -> io::Result<Output> {
    let mut command = Command::new(program);
    command.args(arguments).stdin(Stdio::piped()).stdout(Stdio::piped()).stderr(Stdio::piped());
    let mut child = command.spawn()?;
    let mut input = child.stdin.take().expect("standard input is a pipe");
    for (place, piece) in pieces.iter().enumerate() {
        if place > 0 {
            thread::sleep(PAUSE);
        }
        match input.write_all(piece) {
            Err(error) if error.kind() != ErrorKind::BrokenPipe => return Err(error),
            _ => {}
        }
    }
    drop(input);
    child.wait_with_output()
}

/// Starts a program as [`run`] does. It is a failure if the program cannot be started or its exit status is not 0.
fn ran(program: &Path, arguments: &[&OsStr], pieces: &[&[u8]]) -> Checked<Output> {
    let output =
        run(program, arguments, pieces).map_err(|error| format!("{}: {error}\n", program.display()))?;
    match output.status.success() {
        true => Ok(output),
        false => Err(format!("{}: ended with {}\n", program.display(), output.status)),
    }
}

/// The number of words for each fault and for each two faults.
const VARIANTS: usize = 10;

/// The most letters of a random word.
const LETTERS: usize = 300;

/// Refused words with each fault and each two faults that a word can have; then words with letters that cancel, each
/// followed by a damaged copy.
fn odd_words(maker: &mut Maker) -> Vec<Vec<u8>> {
    let random = &mut maker.random;
    let mut words = Vec::new();
    let questions = ReadWord.facts().questions;
    for (place, first) in questions.iter().enumerate() {
        for second in &questions[place..] {
            for _ in 0..VARIANTS {
                let letters = random.within(0, LETTERS);
                let codes = random.word(letters);
                words.push(files::word(random, &codes, &[*first, *second]));
            }
        }
    }
    for _ in 0..100 {
        let letters = random.within(0, LETTERS);
        let mut file = word_file(&random.tangled_word(letters));
        words.push(file.clone());
        files::damage(random, &mut file, false);
        words.push(file);
    }
    words
}

/// The number of cases for each answer of the reference.
#[derive(Default)]
struct Counts(BTreeMap<u8, usize>);

impl Counts {
    fn count(&mut self, answer: u8) {
        *self.0.entry(answer).or_default() += 1;
    }

    /// The number of cases, in all and for each answer. It is a failure if one of `answers` did not occur.
    fn summary(&self, name: &str, answers: &[u8]) -> Checked<String> {
        let missing: Vec<&u8> = answers.iter().filter(|answer| !self.0.contains_key(answer)).collect();
        if !missing.is_empty() {
            return Err(format!("{name}: no case with answer {missing:?}\n"));
        }
        let each = self.0.iter().map(|(answer, cases)| format!("{answer}: {cases}")).collect::<Vec<String>>();
        let total: usize = self.0.values().sum();
        Ok(format!("{name}: compared {total} cases, by answer {}", each.join(", ")))
    }
}

/// Runs all programs of the folder. Returns lines about them, or an account of the first failure.
pub fn check(folder: &Path, maker: &mut Maker) -> Checked<Vec<String>> {
    let mut lines = desk::check(folder, maker)?;
    lines.push(letters::check(&folder.join("letters"), maker)?);
    lines.push(crossings::check(folder, maker)?);
    lines.push(spread::check(folder)?);
    lines.extend(words::check(folder, maker)?);
    lines.push(shelves::check(folder, maker)?);
    Ok(lines)
}
