//! The work that is measured. The library, plain Rust and plain C get the same inputs.

use std::hint::black_box;

use reference::letter::codes_of;
use reference::pair::carried;
use reference::rewrite::Move;
use reference::start;
use reference::testkit::{accepted_slip, move_list, Random, Slip};
use reference::word::{letters, word_file};
use reference::Field;
use walnut::{Refusal, Shelf, SHELF_BYTES, STORED_BYTES};

use crate::{plain, plain_c};

/// The letters of a typical signature over a field. Source 000 gives the mean length as 5,134.6 bits in table 1, and as
/// 9,932.4 bits in table 2. A letter has four bits.
const fn typical(field: Field) -> usize {
    match field {
        Field::Gf32 => 1_283,
        Field::Gf256 => 2_483,
    }
}

/// The parts of 7 for conversions.
const PARTS: [u8; 2] = [4, 3];

/// The letters of the longest word.
const LONGEST: usize = 10_000;

/// The letters of the word that is rewritten.
const REWRITTEN: usize = 5_000;

/// The moves of a rewriting.
const MOVES: usize = 4_096;

/// The number of keys that are read in one piece of work.
const KEYS: usize = 100;

/// The number of copies of a slip that are judged in one piece of work.
const COPIES: usize = 100;

/// The number of moves by which each copy was rewritten.
const COPY_MOVES: usize = 100;

/// Who does the work.
#[derive(Clone, Copy, PartialEq, Eq)]
pub enum Who {
    Library,
    Rust,
    C,
}

pub const ALL: [Who; 3] = [Who::Library, Who::Rust, Who::C];

/// One piece of work, with its inputs.
pub enum Work {
    Verdict(Slip),
    /// One digest and many words. The verdicts are whole, or by halves.
    Copies {
        slip: Slip,
        words: Vec<Vec<u8>>,
        halved: bool,
    },
    Cloaking {
        key: Vec<u8>,
        word: Vec<u8>,
        by_columns: bool,
    },
    /// Letters multiplied one after another into a lent pair, which is the starting pair first.
    Multiplying {
        t_values: [u8; 8],
        codes: Vec<u8>,
    },
    Rewriting {
        word: Vec<u8>,
        moves: Vec<u8>,
    },
    Reduction {
        word: Vec<u8>,
    },
    /// Words whose handles are taken out. If `again` is true, each step of the C code begins at the front of the word.
    /// Otherwise the C code works as the library does.
    Handles {
        words: Vec<Vec<u8>>,
        limit: u16,
        again: bool,
    },
    /// A word that is stored.
    Storing {
        word: Vec<u8>,
    },
    /// A stored form that is restored.
    Restoring {
        stored: Vec<u8>,
    },
    /// A word turned into the other dialect, for parts 4 and 3.
    Converting {
        to_y: bool,
        word: Vec<u8>,
    },
    /// A Y word in which the pair at a place is replaced.
    Replacing {
        word: Vec<u8>,
        place: usize,
    },
    Keys(Vec<Vec<u8>>),
    Crossings {
        word: Vec<u8>,
    },
    /// A slip judged by a key of a shelf.
    Judging {
        shelf: [u8; SHELF_BYTES],
        slip: Slip,
    },
    Loading(Vec<Vec<u8>>),
    /// The words of a length that end in a list.
    Spreading {
        length: usize,
        labels: [u8; 4],
    },
}

/// The outcome of a piece of work: an answer or another number, and the bytes that were written.
#[derive(PartialEq, Eq, Debug)]
pub struct Outcome {
    pub number: u32,
    pub written: Vec<u8>,
}

/// A case: its name, the number of parts by which the time is divided, and the work.
pub struct Case {
    pub name: &'static str,
    pub parts: usize,
    pub work: Work,
}

fn number(answer: Result<(), u8>) -> u32 {
    answer.err().map_or(0, u32::from)
}

fn cloaking_number(answer: Result<bool, u8>) -> u32 {
    match answer {
        Ok(yes) => u32::from(yes),
        Err(refusal) => 256 + u32::from(refusal),
    }
}

/// The answer of the key reader.
fn key_answer(file: &[u8], who: Who) -> u32 {
    match who {
        Who::Library => number(black_box(walnut::read_key(file)).map(|_| ()).map_err(Refusal::number)),
        Who::Rust => number(plain::read(file)),
        Who::C => u32::from(plain_c::read_key(file)),
    }
}

/// The verdict on a slip with this word instead of its own.
fn verdict(who: Who, slip: &Slip, word: &[u8]) -> u32 {
    let Slip { key, digest, .. } = slip;
    match who {
        Who::Library => number(walnut::verify(key, digest, word).map_err(Refusal::number)),
        Who::Rust => number(plain::verify(key, digest, word)),
        Who::C => u32::from(plain_c::verify(key, digest, word)),
    }
}

/// The sum of the verdicts on a slip with each of these words, by halves. The first half runs once for all words.
fn by_halves(who: Who, slip: &Slip, words: &[Vec<u8>]) -> u32 {
    let Slip { key, digest, .. } = slip;
    match who {
        Who::Library => match walnut::first_half(key, digest) {
            Ok(half) => {
                let second = |word: &Vec<u8>| walnut::second_half(black_box(&half), word);
                words.iter().map(|word| number(second(word).map_err(Refusal::number))).sum()
            }
            Err(refusal) => refusal.number().into(),
        },
        Who::Rust => plain::by_halves(key, digest, words).unwrap_or_else(u32::from),
        Who::C => plain_c::by_halves(key, digest, words),
    }
}

/// A pair's matrix, row by row, then its labels and their positions.
fn by_rows(pair: &walnut::Pair) -> [u8; 80] {
    std::array::from_fn(|at| match at {
        72.. => pair.positions[at - 72],
        64.. => pair.labels[at - 64],
        _ => pair.matrix[walnut::place(at / 8 + 1, at % 8 + 1)],
    })
}

/// Copies bytes to the front of the output. Returns their number.
fn lay_out(bytes: &[u8], out: &mut [u8]) -> usize {
    out[..bytes.len()].copy_from_slice(bytes);
    bytes.len()
}

const ORDER: [u8; 8] = [0, 1, 2, 3, 4, 5, 6, 7];

/// How often two labels cross in an accepted word. Each of the three counts all pairs of labels in one pass.
fn crossings(who: Who, word: &[u8], a: u8, b: u8) -> i32 {
    match who {
        Who::Library => walnut::crossings(word, a, b).unwrap_or(0),
        Who::Rust => plain::crossings(word, a, b).unwrap_or(0),
        Who::C => plain_c::crossings(word, a, b),
    }
}

/// How many words of a length end in a list.
fn words_ending(who: Who, length: usize, labels: &[u8]) -> u32 {
    match who {
        Who::Library => walnut::words_ending(length, labels).unwrap_or(0),
        Who::Rust => plain::words_ending(length, labels).unwrap_or(0),
        Who::C => plain_c::words_ending(length, labels),
    }
}

/// Takes handles out of a word. Returns twice the answer, plus 1 if a handle is left, and the number of bytes written.
fn handles(who: Who, word: &[u8], limit: u16, again: bool, out: &mut [u8]) -> (u32, usize) {
    let came = |came: Result<(bool, usize), u8>| match came {
        Ok((left, bytes)) => (u32::from(left), bytes),
        Err(answer) => (2 * u32::from(answer), 0),
    };
    match who {
        Who::Library => {
            let left = walnut::handle_reduce(word, limit, out);
            came(left.map(|(new, left)| (left, new.len())).map_err(Refusal::number))
        }
        Who::Rust => came(plain::handles(word, limit, out)),
        Who::C => plain_c::handles(word, limit, again, out),
    }
}

/// The answer to a slip by the key that a shelf holds for publisher 2 under number 1, and the letters then charged.
fn judged(who: Who, mut bytes: [u8; SHELF_BYTES], slip: &Slip, out: &mut [u8]) -> (u32, usize) {
    let Slip { digest, word, .. } = slip;
    let answer = match who {
        Who::Library => {
            let mut shelf = Shelf::from(bytes);
            let answer = number(shelf.judge(2, 1, digest, word).map_err(Refusal::number));
            bytes = shelf.bytes;
            answer
        }
        Who::Rust => number(plain::shelf_judge(&mut bytes, 2, 1, digest, word)),
        Who::C => u32::from(plain_c::shelf_judge(&mut bytes, 2, 1, digest, word)),
    };
    (answer, lay_out(&bytes[SHELF_BYTES - 4..], out))
}

/// The sum of the answers to keys that are loaded, by both publishers and under all numbers in turn, and the shelf.
fn loaded(who: Who, keys: &[Vec<u8>], out: &mut [u8]) -> (u32, usize) {
    let mut bytes = [0; SHELF_BYTES];
    let mut shelf = Shelf::empty();
    let load = |(place, key): (usize, &Vec<u8>)| {
        let (publisher, slot) = (place % 2 + 1, place / 2 % 4);
        match who {
            Who::Library => number(shelf.load(publisher, slot, key).map_err(Refusal::number)),
            Who::Rust => number(plain::shelf_load(&mut bytes, publisher, slot, key)),
            Who::C => u32::from(plain_c::shelf_load(&mut bytes, publisher, slot, key)),
        }
    };
    let sum = keys.iter().enumerate().map(load).sum();
    (sum, lay_out(if who == Who::Library { &shelf.bytes } else { &bytes }, out))
}

impl Work {
    /// Does the work once, with an output of 5,006 bytes. Returns its number, and the number of bytes that it wrote.
    pub fn run(&self, who: Who, out: &mut [u8]) -> (u32, usize) {
        match (self, who) {
            (Work::Verdict(slip), who) => (verdict(who, slip, &slip.word), 0),
            (Work::Copies { slip, words, halved: true }, who) => (by_halves(who, slip, words), 0),
            (Work::Copies { slip, words, .. }, who) => {
                (words.iter().map(|word| verdict(who, slip, word)).sum(), 0)
            }
            (Work::Cloaking { key, word, .. }, Who::Library) => {
                (cloaking_number(walnut::cloaks(key, &ORDER, word).map_err(Refusal::number)), 0)
            }
            (Work::Cloaking { key, word, .. }, Who::Rust) => {
                (cloaking_number(plain::cloaks(key, &ORDER, word)), 0)
            }
            (Work::Cloaking { key, word, by_columns }, Who::C) => {
                (plain_c::cloaks(key, &ORDER, word, *by_columns), 0)
            }
            (Work::Multiplying { t_values, codes }, Who::Library) => {
                let mut pair = walnut::Pair::start();
                let answer = |code: &u8| {
                    number(pair.multiply(walnut::Field::Gf32, t_values, *code).map_err(Refusal::number))
                };
                (codes.iter().map(answer).sum(), lay_out(&by_rows(&pair), out))
            }
            (Work::Multiplying { t_values, codes }, who) => {
                let mut pair = by_rows(&walnut::Pair::start());
                let answer = |code: &u8| match who {
                    Who::C => u32::from(plain_c::multiply(&mut pair, t_values, *code)),
                    _ => number(plain::multiply(&mut pair, t_values, *code)),
                };
                (codes.iter().map(answer).sum(), lay_out(&pair, out))
            }
            (Work::Rewriting { word, moves }, Who::Library) => {
                (0, walnut::rewrite(word, moves, out).map_or(0, |written| written.len()))
            }
            (Work::Rewriting { word, moves }, Who::Rust) => {
                (0, plain::rewrite(word, moves, out).unwrap_or(0))
            }
            (Work::Rewriting { word, moves }, Who::C) => (0, plain_c::rewrite(word, moves, out)),
            (Work::Reduction { word }, Who::Library) => {
                (0, walnut::free_reduce(word, out).map_or(0, |written| written.len()))
            }
            (Work::Reduction { word }, Who::Rust) => (0, plain::free_reduce(word, out).unwrap_or(0)),
            (Work::Reduction { word }, Who::C) => (0, plain_c::free_reduce(word, out)),
            (Work::Handles { words, limit, again }, who) => {
                let taken = words.iter().map(|word| handles(who, word, *limit, *again, out));
                taken.fold((0, 0), |(numbers, _), (number, bytes)| (numbers + number, bytes))
            }
            (Work::Storing { word }, Who::Library) => {
                (0, walnut::store(word, out).map_or(0, |written| written.len()))
            }
            (Work::Storing { word }, Who::Rust) => (0, plain::store(word, out).unwrap_or(0)),
            (Work::Storing { word }, Who::C) => (0, plain_c::store(word, out)),
            (Work::Restoring { stored }, Who::Library) => {
                (0, walnut::restore(stored, out).map_or(0, |written| written.len()))
            }
            (Work::Restoring { stored }, Who::Rust) => (0, plain::restore(stored, out).unwrap_or(0)),
            (Work::Restoring { stored }, Who::C) => (0, plain_c::restore(stored, out)),
            (Work::Converting { to_y, word }, Who::Library) => {
                let convert = if *to_y { walnut::to_y } else { walnut::from_y };
                (0, convert(word, &PARTS, out).map_or(0, |written| written.len()))
            }
            (Work::Converting { to_y, word }, Who::Rust) => {
                (0, plain::convert(*to_y, word, &PARTS, out).unwrap_or(0))
            }
            (Work::Converting { to_y, word }, Who::C) => (0, plain_c::convert(*to_y, word, &PARTS, out)),
            (Work::Replacing { word, place }, Who::Library) => {
                (0, walnut::replace_pair(word, *place, out).map_or(0, |written| written.len()))
            }
            (Work::Replacing { word, place }, Who::Rust) => {
                (0, plain::replace_pair(word, *place, out).unwrap_or(0))
            }
            (Work::Replacing { word, place }, Who::C) => (0, plain_c::replace_pair(word, *place, out)),
            (Work::Keys(files), who) => (files.iter().map(|file| key_answer(file, who)).sum(), 0),
            (Work::Crossings { word }, _) => (crossings(who, word, 0, 1) as u32, 0),
            (Work::Judging { shelf, slip }, _) => judged(who, *black_box(shelf), slip, out),
            (Work::Loading(keys), _) => loaded(who, keys, out),
            (Work::Spreading { length, labels }, _) => (words_ending(who, black_box(*length), labels), 0),
        }
    }

    /// The outcome of the work. For crossings the bytes are the numbers of all 28 pairs of labels.
    pub fn outcome(&self, who: Who) -> Outcome {
        let mut out = vec![0; STORED_BYTES];
        let (number, bytes) = self.run(who, &mut out);
        out.truncate(bytes);
        if let Work::Crossings { word } = self {
            let pairs = (0..8).flat_map(|a| (a + 1..8).map(move |b| (a, b)));
            out = pairs.flat_map(|(a, b)| crossings(who, word, a, b).to_be_bytes()).collect();
        }
        Outcome { number, written: out }
    }
}

/// An accepted slip of this word, under a key like those of key generation: a long word carries the starting pair to
/// Pub(S), so the matrix of Pub(S) has an inverse and few zeros.
fn accepted(random: &mut Random, field: Field, codes: &[u8]) -> Slip {
    let (t_values, private) = (random.key_t_values(field), random.word(typical(field)));
    let digest = random.digest(field);
    let pair = carried(field, &start(), &t_values, &private);
    accepted_slip(field, &t_values, &pair, &digest, codes)
}

/// The verdict on an accepted slip with this number of letters.
fn slip(random: &mut Random, field: Field, letters: usize) -> Work {
    let codes = random.word(letters);
    Work::Verdict(accepted(random, field, &codes))
}

/// The verdicts on copies of a typical word. Moves of all kinds have rewritten each copy.
fn copies(random: &mut Random, halved: bool) -> Work {
    let codes = random.tangled_word(typical(Field::Gf32));
    let slip = accepted(random, Field::Gf32, &codes);
    let copy = |_| word_file(&codes_of(&random.walk(&codes, COPY_MOVES).word));
    Work::Copies { slip, words: (0..COPIES).map(copy).collect(), halved }
}

/// A word of 10,000 letters that cloaks: 5,000 letters, then their inverses in reverse order. The C code works on rows
/// of bytes, or on columns of 64 bits as the library does.
fn cloaking(random: &mut Random, field: Field, by_columns: bool) -> Work {
    let there = random.word(LONGEST / 2);
    let back = there.iter().rev().map(|code| code ^ 8);
    let codes: Vec<u8> = there.iter().copied().chain(back).collect();
    Work::Cloaking { key: accepted(random, field, &[]).key, word: word_file(&codes), by_columns }
}

/// Reading keys like those of key generation.
fn keys(random: &mut Random, field: Field) -> Work {
    Work::Keys((0..KEYS).map(|_| accepted(random, field, &[]).key).collect())
}

/// Reading keys of the smaller field with both matrices zero. The first elimination ends at its first column.
fn zero_keys(random: &mut Random) -> Work {
    let blank = |_| {
        let mut key = accepted(random, Field::Gf32, &[]).key;
        key[8..44].fill(0);
        key[47..].fill(0);
        key
    };
    Work::Keys((0..KEYS).map(blank).collect())
}

/// Multiplying this number of letters into a lent pair.
fn multiplying(random: &mut Random, letters: usize) -> Work {
    Work::Multiplying { t_values: random.key_t_values(Field::Gf32), codes: random.word(letters) }
}

/// Rewriting by 4,096 moves of all kinds. Each move is possible on the word that the move before it left.
fn rewriting(random: &mut Random) -> Work {
    let codes = random.tangled_word(REWRITTEN);
    let walk = random.walk(&codes, MOVES);
    assert_eq!(walk.moves.len(), MOVES, "a walk ended early");
    Work::Rewriting { word: word_file(&codes), moves: move_list(&walk.moves) }
}

/// Rewriting by as many moves as a list may have. By turns they insert b1 b1⁻¹ at one place and remove it again.
fn by_turns(letters: usize, place: usize) -> Work {
    let codes: Vec<u8> = (0..letters).map(|place| (place % 2) as u8).collect();
    let step = |turn| Move { place: place as u16, kind: if turn % 2 == 0 { 16 } else { 1 } };
    let moves: Vec<Move> = (0..MOVES).map(step).collect();
    Work::Rewriting { word: word_file(&codes), moves: move_list(&moves) }
}

/// Rewriting a word of this number of letters by no moves. The word is read, unpacked and written.
fn no_moves(random: &mut Random, letters: usize) -> Work {
    Work::Rewriting { word: word_file(&random.word(letters)), moves: move_list(&[]) }
}

/// Free reduction of a word of this number of letters, many of which cancel.
fn reduction(random: &mut Random, letters: usize) -> Work {
    Work::Reduction { word: word_file(&random.tangled_word(letters)) }
}

/// The stored form of a word of this number of letters.
fn stored(random: &mut Random, letters: usize) -> Vec<u8> {
    let mut out = [0; STORED_BYTES];
    let bytes = plain_c::store(&word_file(&random.word(letters)), &mut out);
    out[..bytes].to_vec()
}

/// Signatures as signers make them, at strength 128 and freely reduced.
fn signatures() -> Vec<Vec<u8>> {
    let file = |line: &str| {
        let digits: Vec<u8> = line.bytes().map(|digit| (digit as char).to_digit(16).unwrap() as u8).collect();
        digits.chunks(2).map(|two| 16 * two[0] + two[1]).collect()
    };
    let lines = include_str!("../signatures.txt").lines();
    lines.filter(|line| !line.starts_with('#')).map(file).collect()
}

/// Takes handles out of signatures, or of one other word, with the largest limit of steps.
fn taking(words: Vec<Vec<u8>>, again: bool) -> Work {
    Work::Handles { words, limit: u16::MAX, again }
}

/// The letters of the first signatures, one after another, as one word.
fn joined(count: usize) -> Vec<u8> {
    word_file(&signatures()[..count].iter().flat_map(|word| letters(word)).collect::<Vec<_>>())
}

/// b1 5,000 times, and then b7 and its inverse 2,500 times.
fn far_apart() -> Vec<u8> {
    word_file(&[vec![0; 5_000], [6, 14].repeat(2_500)].concat())
}

/// A word of `letters` letters to turn into the other dialect.
fn converting(random: &mut Random, to_y: bool, letters: usize) -> Work {
    Work::Converting { to_y, word: word_file(&random.word(letters)) }
}

/// A Y word of `letters` letters. The pair y1 y2⁻¹ stands in the middle, and row 26 replaces it.
fn replacing(random: &mut Random, letters: usize) -> Work {
    let (mut codes, place) = (random.word(letters), letters / 2);
    codes[place..place + 2].copy_from_slice(&[0, 9]);
    Work::Replacing { word: word_file(&codes), place }
}

/// An accepted slip of a typical word, and a shelf that holds its key. In a full round its letters are not admitted.
fn judging(random: &mut Random, full: bool) -> Work {
    let codes = random.word(typical(Field::Gf32));
    let slip = accepted(random, Field::Gf32, &codes);
    let mut shelf = [0; SHELF_BYTES];
    assert_eq!(plain_c::shelf_load(&mut shelf, 2, 1, &slip.key), 0, "the key is accepted");
    if full {
        shelf[SHELF_BYTES - 2..].copy_from_slice(&20_000_u16.to_be_bytes());
    }
    Work::Judging { shelf, slip }
}

/// Keys like those of key generation, to be loaded.
fn loading(random: &mut Random) -> Work {
    Work::Loading((0..KEYS).map(|_| accepted(random, Field::Gf32, &[]).key).collect())
}

/// How many cases there are.
pub const CASES: usize = 34;

/// The case with a number. It is the same in every run.
pub fn case(number: usize) -> Case {
    plain_c::tables();
    let random = &mut Random::seeded(1);
    let (small, large) = (Field::Gf32, Field::Gf256);
    let middle = LONGEST / 2;
    let (name, parts, work) = match number {
        0 => ("verdict, 1,283 letters", 1, slip(random, small, typical(small))),
        1 => ("verdict, 10,000 letters", 1, slip(random, small, LONGEST)),
        2 => ("a letter (cloaking, 10,000)", LONGEST, cloaking(random, small, false)),
        3 => ("256: verdict, 2,483 letters", 1, slip(random, large, typical(large))),
        4 => ("256: a letter (cloaking)", LONGEST, cloaking(random, large, false)),
        5 => ("rewriter, 4,096 moves", 1, rewriting(random)),
        6 => ("rewriter, all in the middle", 1, by_turns(LONGEST - 2, middle)),
        7 => ("rewriter, all at the front", 1, by_turns(LONGEST - 2, 0)),
        8 => ("rewriter, no letters", 1, by_turns(0, 0)),
        9 => ("rewriter, no moves", 1, no_moves(random, LONGEST - 2)),
        10 => ("free reduction", 1, reduction(random, LONGEST - 2)),
        11 => ("a letter, C by columns too", LONGEST, cloaking(random, small, true)),
        12 => ("a key read", KEYS, keys(random, small)),
        13 => ("a key of zeros refused", KEYS, zero_keys(random)),
        14 => ("256: a key read", KEYS, keys(random, large)),
        15 => ("lent multiplier, a letter", typical(small), multiplying(random, typical(small))),
        16 => ("28 crossings, 10,000 letters", 1, Work::Crossings { word: word_file(&random.word(LONGEST)) }),
        17 => ("100 copies, by halves", 1, copies(random, true)),
        18 => ("100 copies, whole", 1, copies(random, false)),
        19 => ("storing, 10,000 letters", 1, Work::Storing { word: word_file(&random.word(LONGEST)) }),
        20 => ("restoring, 10,000 letters", 1, Work::Restoring { stored: stored(random, LONGEST) }),
        21 => ("handles of a signature", signatures().len(), taking(signatures(), false)),
        22 => ("the same, C from the front", signatures().len(), taking(signatures(), true)),
        23 => ("handles, random, 1,283", 1, taking(vec![word_file(&random.word(typical(small)))], false)),
        24 => ("handles, eight signatures", 1, taking(vec![joined(8)], false)),
        25 => ("handles, tangled, 10,000", 1, taking(vec![word_file(&random.tangled_word(LONGEST))], false)),
        26 => ("handles far apart, 10,000", 1, taking(vec![far_apart()], false)),
        27 => ("words of length 12 in a list", 1, Work::Spreading { length: 12, labels: [2, 3, 0, 1] }),
        28 => ("to Y, 1,283 letters", 1, converting(random, true, typical(small))),
        29 => ("from Y, 1,283 letters", 1, converting(random, false, typical(small))),
        30 => ("verdict by a shelf, 1,283", 1, judging(random, false)),
        31 => ("a key loaded into a shelf", KEYS, loading(random)),
        32 => ("pair replaced, 1,283 letters", 1, replacing(random, typical(small))),
        _ => ("slip refused by a full round", 1, judging(random, true)),
    };
    Case { name, parts, work }
}
