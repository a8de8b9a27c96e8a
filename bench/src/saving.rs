//! How much shortening saves, and how long it takes. For each class of words the program measures the library at
//! several efforts, the same search in plain C, and other ways to shorten a word.
//!
//! `bench saving` prints a line for each class and way. A line has the class, the way, the effort, the mean number of
//! letters of a word before and after, the mean bytes of its file before and after, and the mean microseconds for a
//! word of the library and of plain C. The last number is 0 if plain C does not have the way. Lines of random turns
//! have the time of the turns in place of the library's. `bench/picture` draws these lines.

use std::hint::black_box;
use std::time::{Duration, Instant};

use reference::testkit::{signatures, Random};
use reference::word::{letters, word_file};
use walnut::WORD_BYTES;

use crate::plain_c;
use crate::turns::turned;

/// The efforts of arcs.
const EFFORTS: [u16; 7] = [0, 1, 2, 5, 10, 20, 50];

/// The tries of random turns for each letter.
const TURNS: [usize; 4] = [10, 100, 1_000, 10_000];

/// Each word gets at least `LEAST` and at most `MOST` rounds. After the first `LEAST` rounds, another round begins only
/// if the rounds have taken less than `LONG` together.
const LEAST: usize = 5;
const MOST: usize = 50;
const LONG: Duration = Duration::from_millis(100);

/// The number of letters of the random word.
const LONGEST: usize = 10_000;

/// The most steps of handle reduction: the largest limit that it takes.
const LIMIT: u16 = u16::MAX;

/// Words of one kind.
struct Class {
    name: &'static str,
    words: Vec<Vec<u8>>,
}

/// A way to shorten a word file. It returns the number of bytes written, or 0 on a refusal.
type Way<'a> = &'a dyn Fn(&[u8], &mut [u8]) -> usize;

/// The word file that a way makes from a word file. On a refusal it is the old word file.
fn made(word: &[u8], way: impl Fn(&[u8], &mut [u8]) -> usize) -> Vec<u8> {
    let mut out = vec![0; WORD_BYTES];
    match way(word, &mut out) {
        0 => word.to_vec(),
        bytes => out[..bytes].to_vec(),
    }
}

/// Handle reduction by the library, as a [`Way`].
fn handles(word: &[u8], out: &mut [u8]) -> usize {
    walnut::handle_reduce(word, LIMIT, out).map_or(0, |(reduced, _)| reduced.len())
}

/// A word of `count` random letters. No letter cancels the letter before it.
fn random_word(count: usize) -> Vec<u8> {
    let (random, mut codes) = (&mut Random::seeded(1), Vec::new());
    while codes.len() < count {
        let letter = random.letter();
        if codes.last() != Some(&(letter ^ 8)) {
            codes.push(letter);
        }
    }
    codes
}

fn classes() -> [Class; 5] {
    let rewritten = signatures("stoch32");
    let reduced = rewritten.iter().map(|word| made(word, handles)).collect();
    let random = vec![word_file(&random_word(LONGEST))];
    [
        Class { name: "signatures, 128", words: signatures("sig32") },
        Class { name: "signatures, 256", words: signatures("sig256") },
        Class { name: "after stochastic rewriting", words: rewritten },
        Class { name: "the same, then handles", words: reduced },
        Class { name: "random, 10,000 letters", words: random },
    ]
}

/// The mean time of each way for a word, in microseconds. The ways run in turn, round after round. For each word and
/// way the least time of all rounds counts.
fn times<const WAYS: usize>(words: &[Vec<u8>], ways: [Way; WAYS]) -> [f64; WAYS] {
    let (mut out, mut sums) = (vec![0; WORD_BYTES], [0.0; WAYS]);
    for word in words {
        let (mut least, mut rounds, all) = ([f64::INFINITY; WAYS], 0, Instant::now());
        while rounds < LEAST || rounds < MOST && all.elapsed() < LONG {
            for (time, way) in least.iter_mut().zip(ways) {
                let start = Instant::now();
                black_box(way(black_box(word), black_box(&mut out)));
                *time = time.min(start.elapsed().as_secs_f64());
            }
            rounds += 1;
        }
        sums.iter_mut().zip(least).for_each(|(sum, time)| *sum += time);
    }
    sums.map(|sum| sum * 1e6 / words.len() as f64)
}

/// The mean number of letters of a word, and the mean bytes of its file.
fn sizes(files: &[Vec<u8>]) -> [f64; 2] {
    let count: usize = files.iter().map(|file| letters(file).len()).sum();
    let bytes: usize = files.iter().map(Vec::len).sum();
    [count, bytes].map(|sum| sum as f64 / files.len() as f64)
}

/// Prints the line of a way and a class. `after` has the word files after shortening.
fn line(class: &Class, way: &str, effort: usize, after: &[Vec<u8>], micros: [f64; 2]) {
    let ([letters, bytes], [left, short]) = (sizes(&class.words), sizes(after));
    print!("{}\t{way}\t{effort}\t{letters:.1}\t{left:.1}\t{bytes:.1}\t{short:.1}", class.name);
    println!("\t{:.1}\t{:.1}", micros[0], micros[1]);
}

/// Measures a way that only the library has, and prints its line. It prints no line if the way refuses a word.
fn alone(class: &Class, name: &str, way: Way) {
    if class.words.iter().any(|word| way(word, &mut [0; WORD_BYTES]) == 0) {
        return;
    }
    let after: Vec<Vec<u8>> = class.words.iter().map(|word| made(word, way)).collect();
    let [micros] = times(&class.words, [way]);
    line(class, name, 0, &after, [micros, 0.0]);
}

/// Measures arcs at an effort, and prints the line. Returns false if the words of the library and of plain C differ.
fn arcs(class: &Class, effort: u16) -> bool {
    let library =
        |word: &[u8], out: &mut [u8]| walnut::shorten(word, effort, out).map_or(0, |written| written.len());
    let plain = |word: &[u8], out: &mut [u8]| plain_c::shorten(word, effort, out);
    let after: Vec<Vec<u8>> = class.words.iter().map(|word| made(word, library)).collect();
    let same = class.words.iter().zip(&after).all(|(word, short)| made(word, plain) == *short);
    line(class, "arcs", effort.into(), &after, times(&class.words, [&library, &plain]));
    same
}

/// Measures random turns with `tries` tries for each letter, and prints the line. Each word is shortened once.
fn turns(class: &Class, tries: usize) {
    let start = Instant::now();
    let after: Vec<Vec<u8>> = class.words.iter().map(|word| turned(&letters(word), tries)).collect();
    let micros = start.elapsed().as_secs_f64() * 1e6 / class.words.len() as f64;
    let files: Vec<Vec<u8>> = after.iter().map(|codes| word_file(codes)).collect();
    line(class, "turns", tries, &files, [micros, 0.0]);
}

/// Prints all lines. Returns false if the words of the library and of plain C differ.
pub fn saving() -> bool {
    let mut same = true;
    for class in classes() {
        alone(&class, "free reduction", &|word, out| {
            walnut::free_reduce(word, out).map_or(0, |file| file.len())
        });
        alone(&class, "handles", &handles);
        for effort in EFFORTS {
            let agreed = arcs(&class, effort);
            if !agreed {
                println!("{}: the library and plain C differ at effort {effort}", class.name);
            }
            same &= agreed;
        }
        TURNS.into_iter().for_each(|tries| turns(&class, tries));
    }
    same
}
