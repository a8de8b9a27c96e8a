//! The rewriter.

use reference::letter::Letter;
use reference::rewrite::{move_answer, moved, Move, MOST_MOVES};
use reference::testkit::{move_list, Random, Walk};
use reference::word::{word_file, MOST_LETTERS};

use crate::operation::prelude::*;
use crate::shrink::items::{filler, move_items, word_items, word_of};

pub struct Rewrite;

const MOVES: Part = Part { name: "moves", form: Form::Moves };

impl Operation for Rewrite {
    fn facts(&self) -> Facts {
        let questions = &[15, 9, 10, 11, 12, 13, 18, 19, 20, 21, 22, 23, 24];
        let facts = Facts::of("rewrite", questions, &[parts::WORD, MOVES]);
        Facts { output: WORDS, numbers: &["bytes"], slow: &[24], share: 16, ..facts }
    }

    fn make(&self, maker: &mut Maker, _: Field, faults: &[u8], size: Size) -> Option<Parts> {
        let size = if faults.contains(&24) { Size::Long } else { size };
        let codes = maker.codes(size);
        let random = &mut maker.random;
        let count = match size {
            Size::Short => random.within(0, 8),
            Size::Middle => random.within(0, 100),
            Size::Long if faults.is_empty() => random.pick(&[0, 20, 300, MOST_MOVES]),
            Size::Long => random.pick(&[0, 0, 1, 300]),
        };
        Some(vec![files::word(random, &codes, faults), moves(random, &codes, count, faults)])
    }

    /// Random moves, each possible or not.
    fn rough(&self, maker: &mut Maker) -> Option<Parts> {
        let codes = maker.codes(Size::Short);
        let random = &mut maker.random;
        let count = random.within(0, 6);
        let moves: Vec<Move> = (0..count)
            .map(|_| {
                let (fitting, any) = (insertion(random), random.byte());
                let kinds = [1, 2, 3, 1, 2, 3, fitting, fitting, fitting, any];
                Move { place: random.within(0, codes.len() + 2) as u16, kind: random.pick(&kinds) }
            })
            .collect();
        Some(vec![word_file(&codes), move_list(&moves)])
    }

    fn call(&self, by: By, input: &Input) -> Outcome {
        let [word, list] = input.slices();
        let (codes, n, moves, m) = (word.as_ptr(), word.len(), list.as_ptr(), list.len());
        input.lending(|out| {
            let (bytes, room) = (out.as_mut_ptr(), out.len());
            match by {
                // SAFETY: see `Operation::call`.
                By::Library => outcome!(unsafe { walnut_rewrite(codes, n, moves, m, bytes, room) }, bytes),
                By::Reference => outcome!(reference::rewrite(word, list, out), bytes),
            }
        })
    }

    fn fixed(&self) -> Vec<Fixed> {
        let full = [hex("27 10"), vec![0; 5_000]].concat();
        let rewrite =
            |name: &str, word: &str, list: &str| Fixed::of(&Rewrite, name, &[&hex(word), &hex(list)]);
        vec![
            rewrite("kind 3 at place 0 of b1 b2 b1", "00 03 01 00", "00 01 00 00 03")
                .writes(&hex("00 03 10 10")),
            rewrite("kind 1 at place 0 of b1 b1⁻¹", "00 02 08", "00 01 00 00 01").writes(&hex("00 00")),
            rewrite("no moves", SEVEN, "00 00").writes(&hex(SEVEN)),
            rewrite("kind 2 at place 0 of b1 b2", "00 02 01", "00 01 00 00 02").refused(23),
            rewrite("kind 16 at place 1 of no letters", "00 00", "00 01 00 01 10").refused(22),
            Fixed::of(&Rewrite, "kind 16 on 10,000 letters", &[&full, &hex("00 01 00 00 10")]).refused(24),
            rewrite("number 10,001", "27 11", "00 00").refused(10),
        ]
    }

    fn small(&self, run: &mut Run) -> Checked {
        self.every_kind(run)?;
        self.every_three_letters(run)?;
        self.refused_twice(run)?;
        self.on_full_words(run)
    }

    /// Cuts letters, and lowers the places of moves after them.
    fn shrunk(&self, shrinker: &Shrinker, mut input: Input) -> Input {
        let letters = |input: &Input| word_items(&input.parts[0]).map_or(0, |items| items.len());
        let mut size = letters(&input);
        while size > 0 {
            let mut from = 0;
            while from < letters(&input) {
                match without_letters(&input, from, size).filter(|shorter| shrinker.fails(shorter)) {
                    Some(shorter) => input = shorter,
                    None => from += size,
                }
            }
            size /= 2;
        }
        input
    }
}

/// The input without `count` letters, starting at `from`. The places of moves after these letters are lowered.
fn without_letters(input: &Input, from: usize, count: usize) -> Option<Input> {
    let [word, list] = input.slices();
    let (mut letters, mut moves) = (word_items(word)?, move_items(list)?);
    let end = letters.len().min(from + count);
    letters.drain(from.min(end)..end);
    for step in moves.iter_mut().filter(|step| usize::from(step.place) >= end) {
        step.place -= (end - from) as u16;
    }
    Some(Input { parts: vec![word_of(&letters, filler(word)), move_list(&moves)], ..input.clone() })
}

impl Rewrite {
    /// Each kind, at each place from 0 to 6 of a word of four letters.
    fn every_kind(&self, run: &mut Run) -> Checked {
        for (kind, place) in (0..=255).flat_map(|kind| (0..=6).map(move |place| (kind, place))) {
            let word = word_file(&run.maker.random.tangled_word(4));
            run.parts(&Rewrite, vec![word, vec![0, 1, 0, place, kind]], None)?;
        }
        Ok(())
    }

    /// The kinds that need letters, on every word of three letters.
    fn every_three_letters(&self, run: &mut Run) -> Checked {
        let codes = || (0..16).filter(|code| Letter::from_code(*code).is_some());
        for [a, b] in codes().flat_map(|a| codes().map(move |b| [a, b])) {
            for (c, kind) in codes().flat_map(|c| [1, 2, 3].map(|kind| (c, kind))) {
                run.parts(&Rewrite, vec![word_file(&[a, b, c]), vec![0, 1, 0, 0, kind]], None)?;
            }
        }
        Ok(())
    }

    /// Two refused moves in a list, in either order, after possible moves. The first refused move decides the answer.
    fn refused_twice(&self, run: &mut Run) -> Checked {
        for (early, late) in (21..=24).flat_map(|early| (21..=24).map(move |late| (early, late))) {
            let random = &mut run.maker.random;
            let codes = random.tangled_word(9_990);
            let Walk { mut moves, word } = prepared(random, &codes, 3, &[early, late]);
            moves.extend([bad_move(random, &word, &[early]), bad_move(random, &word, &[late])]);
            run.parts(&Rewrite, vec![word_file(&codes), move_list(&moves)], Some(early))?;
        }
        Ok(())
    }

    /// Moves on words with room for two more letters and on words without, at both ends and past the end. Each move is
    /// also tried after a removal at the front.
    fn on_full_words(&self, run: &mut Run) -> Checked {
        for letters in [9_998, 9_999, 10_000] {
            let mut codes = run.maker.random.tangled_word(letters);
            codes[..2].copy_from_slice(&[0, 8]);
            for place in [0, letters - 2, letters, letters + 1, 0xFFFF] {
                for kind in [0, 1, 2, 3, 16, 23, 30, 31] {
                    let step = Move { place: place as u16, kind };
                    for moves in [vec![step], vec![Move { place: 0, kind: 1 }, step]] {
                        run.parts(&Rewrite, vec![word_file(&codes), move_list(&moves)], None)?;
                    }
                }
            }
        }
        Ok(())
    }
}

// ---- Move lists with chosen faults ----

/// A number that is not a kind.
fn bad_kind(random: &mut Random) -> u8 {
    let between = random.within(4, 15) as u8;
    let above = random.within(31, 255) as u8;
    random.pick(&[0, between, 23, 31, 32, above])
}

/// The number of an insertion.
fn insertion(random: &mut Random) -> u8 {
    16 + random.letter()
}

/// A place with too few letters after it for a move of this kind.
fn place_past(random: &mut Random, letters: usize, kind: u8) -> u16 {
    let needs = match kind {
        1 | 2 => 2,
        3 => 3,
        _ => 0,
    };
    let least = (letters + 1).saturating_sub(needs);
    let near = random.within(least, letters + 3) as u16;
    random.pick(&[least as u16, near, 0xFFFF])
}

/// A move whose letters exist but do not match its kind. The word must have at least two letters. Such a move exists,
/// because no two letters match both kind 1 and kind 2.
fn misshapen(random: &mut Random, word: &[Letter]) -> Move {
    let place = random.within(0, word.len() - 2) as u16;
    let kinds = random.shuffled([1, 2, 3]);
    let steps = kinds.map(|kind| Move { place, kind });
    steps.into_iter().find(|step| move_answer(word, *step) == 23).expect("kind 1 or 2 does not match")
}

/// A move with the faults that are among 21 to 24. For 24 the word must be full. For 23 it must have at least two
/// letters.
fn bad_move(random: &mut Random, word: &[Letter], faults: &[u8]) -> Move {
    let has = |number: u8| faults.contains(&number);
    let within = random.within(0, word.len()) as u16;
    if has(21) {
        let place = if has(22) { place_past(random, word.len(), 16) } else { within };
        return Move { place, kind: bad_kind(random) };
    }
    if has(22) {
        let fitting = insertion(random);
        let kind = if has(24) { fitting } else { random.pick(&[1, 2, 3, fitting]) };
        return Move { place: place_past(random, word.len(), kind), kind };
    }
    if has(23) {
        return misshapen(random, word);
    }
    Move { place: within, kind: insertion(random) }
}

/// Adds insertions until the word has at least `letters` letters.
fn grow(random: &mut Random, mut walk: Walk, letters: usize) -> Walk {
    while walk.word.len() < letters {
        let step = Move { place: random.within(0, walk.word.len()) as u16, kind: insertion(random) };
        walk.word = moved(walk.word, step).expect("there is room");
        walk.moves.push(step);
    }
    walk
}

/// A walk after which the word is long enough for a move with these faults.
fn prepared(random: &mut Random, codes: &[u8], moves: usize, faults: &[u8]) -> Walk {
    let walk = random.walk(codes, moves);
    let letters = [(24, MOST_LETTERS - 1), (23, 2)];
    let needed = letters.iter().find(|(fault, _)| faults.contains(fault));
    grow(random, walk, needed.map_or(0, |(_, letters)| *letters))
}

/// Random moves after a refused move. They do not change the answer.
fn tail(random: &mut Random) -> Vec<Move> {
    let count = random.below(4);
    (0..count).map(|_| Move { place: random.below(0x1_0000) as u16, kind: random.byte() }).collect()
}

/// A list of moves for the word with these codes. Faults: 18 to 24. A list without faults is accepted for this word.
fn moves(random: &mut Random, codes: &[u8], count: usize, faults: &[u8]) -> Vec<u8> {
    let Walk { mut moves, word } = prepared(random, codes, count, faults);
    if faults.iter().any(|fault| (21..=24).contains(fault)) {
        moves.push(bad_move(random, &word, faults));
        moves.extend(tail(random));
    }
    assert!(moves.len() <= MOST_MOVES);
    spoiled(random, move_list(&moves), faults)
}

/// The list with faults in its form: 18, 19, 20.
fn spoiled(random: &mut Random, mut list: Vec<u8>, faults: &[u8]) -> Vec<u8> {
    if faults.contains(&19) {
        let any = random.within(MOST_MOVES + 1, 0xFFFF) as u16;
        let number = random.pick(&[4_097, 0xFFFF, any]);
        list[..2].copy_from_slice(&number.to_be_bytes());
        if number == 4_097 && random.one_in(2) {
            list.resize(2 + 3 * 4_097, 1);
        }
    }
    if faults.contains(&20) {
        files::change_length(random, &mut list, 2);
    }
    if faults.contains(&18) {
        list.truncate(random.below(2));
    }
    list
}
