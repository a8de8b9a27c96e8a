//! Shortening by arcs. An arc is a strand along a part of the word, where the strand goes over at each of its
//! crossings, or under at each. The shortener lifts the strand off and lays it again by a shortest way.
//!
//! The papers do not ask for this operation. With an effort over 0 the contract of the proved code does not say which
//! word it returns. This module is written from the rules of the proved code's search, so that tests can compare the two
//! words byte for byte.
//! It first splits a part of the word into the strand's two ends and the gaps of the other letters. It makes the plan
//! from the ends and the gaps alone. Words are lists, and the new part is spliced in.

use crate::questions::first_refusal;
use crate::reduce::cancels;
use crate::word::{letters, room_answer, word_answer, write_file, Written, MOST_LETTERS};
use crate::STRANDS;

/// The most letters that an arc may have on each side of the place where it was found.
const REACH: usize = 256;

/// The random numbers. Each is the number before it times `FACTOR`, modulo `PRIME`. The first comes from `SEED`.
const SEED: usize = 1;
const FACTOR: usize = 48_271;
const PRIME: usize = (1 << 31) - 1;

/// The most steps of handle reduction.
const HANDLE_STEPS: usize = 65_535;

/// The number of a letter's generator, minus 1.
fn generator(code: u8) -> usize {
    (code % 8).into()
}

/// 0 for a positive letter, 1 for an inverse one.
fn sign(code: u8) -> usize {
    (code / 8).into()
}

/// The code of the letter with this generator and sign.
fn code(generator: usize, sign: usize) -> u8 {
    (generator + 8 * sign) as u8
}

// ---- Swapping and cancelling ----

/// The word after swaps and cancellations. A letter cancels an earlier letter that is its inverse if all letters kept
/// between the two commute with both. The latest kept letter with the same or a neighbouring generator decides.
pub fn swap_cancelled(codes: &[u8]) -> Vec<u8> {
    let mut kept: Vec<u8> = Vec::new();
    for &letter in codes {
        let near = |other: &u8| generator(*other).abs_diff(generator(letter)) <= 1;
        match kept.iter().rposition(near) {
            Some(place) if cancels(kept[place], letter) => {
                kept.remove(place);
            }
            _ => kept.push(letter),
        }
    }
    kept
}

// ---- Arcs ----

/// The random choices for one step.
struct Draw {
    place: usize,
    /// The strand's sign. With 0, positive letters move the strand right and inverse letters move it left. With 1,
    /// inverse letters move it right and positive letters move it left.
    sign: usize,
    /// Does the plan begin at the strand's end? Otherwise it begins at the strand's start.
    from_end: bool,
    /// Does the strand go left if both sides cost the same?
    left: bool,
}

impl Draw {
    fn of(number: usize, letters: usize) -> Draw {
        let (place, rest) = (number % letters, number / letters);
        Draw { place, sign: rest % 2, from_end: rest / 2 % 2 == 1, left: rest / 4 % 2 == 1 }
    }
}

/// The place of a strand after a letter. `strand` is the strand's sign. The result is `None` if the letter moves the
/// strand by a crossing of the other sign.
fn moved(place: usize, letter: u8, strand: usize) -> Option<usize> {
    if generator(letter) == place {
        (sign(letter) == strand).then_some(place + 1)
    } else if generator(letter) + 1 == place {
        (sign(letter) != strand).then(|| place - 1)
    } else {
        Some(place)
    }
}

/// Follows a strand of sign `strand` from a place along the letters, up to the first crossing of the other sign or for
/// [`REACH`] letters. Returns the number of letters and the strand's place after them.
fn reach<'a>(letters: impl Iterator<Item = &'a u8>, place: usize, strand: usize) -> (usize, usize) {
    let (mut count, mut place) = (0, place);
    for letter in letters.take(REACH) {
        let Some(next) = moved(place, *letter, strand) else { break };
        (count, place) = (count + 1, next);
    }
    (count, place)
}

/// An arc: the part of the word from `from` up to `to`, the strand's sign, and the strand's places before and after the
/// part.
struct Arc {
    from: usize,
    to: usize,
    sign: usize,
    start: usize,
    end: usize,
}

impl Arc {
    /// The longest arc through the letter at the drawn place. Read backwards, the strand crosses with the other sign.
    fn through(word: &[u8], draw: &Draw) -> Arc {
        let (before, after) = word.split_at(draw.place);
        let letter = after[0];
        let here = generator(letter) + usize::from(sign(letter) != draw.sign);
        let (back, start) = reach(before.iter().rev(), here, 1 - draw.sign);
        let (on, end) = reach(after.iter(), here, draw.sign);
        Arc { from: draw.place - back, to: draw.place + on, sign: draw.sign, start, end }
    }
}

/// A letter of an arc that does not cross the arc's strand. Its gap is the place between its own two strands. The arc's
/// strand cannot be at the gap.
#[derive(Clone, Copy)]
struct Other {
    gap: usize,
    sign: usize,
}

/// The letters of a part that do not cross the strand. The strand begins at the place `start`.
fn others(part: &[u8], start: usize) -> Vec<Other> {
    let mut place = start;
    let mut others = Vec::new();
    for &letter in part {
        let low = generator(letter);
        if low == place {
            place += 1;
        } else if low + 1 == place {
            place -= 1;
        } else {
            let gap = if low > place { low } else { low + 1 };
            others.push(Other { gap, sign: sign(letter) });
        }
    }
    others
}

/// The new strand's place at each of the other letters, along a cheapest way from `near` to `far`. The strand moves
/// only if it stands at a letter's gap. It then goes to the side from which the rest of the way costs less. The letters
/// are in the order from `near` to `far`.
fn plan(others: &[Other], near: usize, far: usize, left_on_tie: bool) -> Vec<usize> {
    let mut costs: Vec<usize> = (0..STRANDS).map(|place| place.abs_diff(far)).collect();
    let mut sides = Vec::new();
    for other in others.iter().rev() {
        let (left, right) = (costs[other.gap - 1], costs[other.gap + 1]);
        let goes_left = left < right || left == right && left_on_tie;
        costs[other.gap] = 1 + if goes_left { left } else { right };
        sides.push(goes_left);
    }
    let mut place = near;
    let mut places = Vec::new();
    for (other, goes_left) in others.iter().zip(sides.into_iter().rev()) {
        if place == other.gap {
            place = if goes_left { place - 1 } else { place + 1 };
        }
        places.push(place);
    }
    places
}

/// The letters that move a strand from one place to another. `strand` is the strand's sign.
fn run(from: usize, to: usize, strand: usize) -> Vec<u8> {
    if from <= to {
        (from..to).map(|place| code(place, strand)).collect()
    } else {
        (to..from).rev().map(|place| code(place, 1 - strand)).collect()
    }
}

/// The new part, in which the strand follows a plan. `places` is the plan: the strand's place at each other letter.
fn laid(arc: &Arc, others: &[Other], places: &[usize]) -> Vec<u8> {
    let (mut part, mut strand) = (Vec::new(), arc.start);
    for (other, &place) in others.iter().zip(places) {
        part.extend(run(strand, place, arc.sign));
        let generator = if place < other.gap { other.gap } else { other.gap - 1 };
        part.push(code(generator, other.sign));
        strand = place;
    }
    part.extend(run(strand, arc.end, arc.sign));
    part
}

/// One step: finds an arc and lays its strand again. The word stays as it is if the new part would be longer.
fn step(word: &mut Vec<u8>, draw: &Draw) {
    let arc = Arc::through(word, draw);
    let mut others = others(&word[arc.from..arc.to], arc.start);
    let places = if draw.from_end {
        others.reverse();
        let mut places = plan(&others, arc.end, arc.start, draw.left);
        others.reverse();
        places.reverse();
        places
    } else {
        plan(&others, arc.start, arc.end, draw.left)
    };
    let part = laid(&arc, &others, &places);
    if part.len() <= arc.to - arc.from {
        word.splice(arc.from..arc.to, part);
    }
}

/// The word after `effort` steps for each letter of `codes`.
pub fn with_arcs(codes: &[u8], effort: u16) -> Vec<u8> {
    let (mut word, mut number) = (codes.to_vec(), SEED);
    for _ in 0..usize::from(effort) * codes.len() {
        if word.is_empty() {
            break;
        }
        number = number * FACTOR % PRIME;
        let draw = Draw::of(number, word.len());
        step(&mut word, &draw);
    }
    word
}

// ---- The operation ----

/// Swaps and cancels, applies arcs, and then swaps and cancels again.
fn route(codes: &[u8], effort: u16) -> Vec<u8> {
    swap_cancelled(&with_arcs(&swap_cancelled(codes), effort))
}

/// The shorter of two words. The first is the route of the word itself. The second is the route of the word after
/// handle reduction. On a tie the result is the first. There is no second if the effort is 0 or handle reduction
/// refuses the word.
pub fn shortened(codes: &[u8], effort: u16) -> Vec<u8> {
    let first = route(codes, effort);
    let reduced = if effort > 0 { without_handles(codes) } else { None };
    match reduced.map(|reduced| route(&reduced, effort)) {
        Some(second) if second.len() < first.len() => second,
        _ => first,
    }
}

/// Shortens a word file. Answers: 15, then the word's 9 to 13.
pub fn shorten(word: &[u8], effort: u16, out: &mut [u8]) -> Written {
    match first_refusal(&[room_answer(out), word_answer(word)]) {
        0 => write_file(&shortened(&letters(word), effort), out),
        answer => Written::refusal(answer),
    }
}

/// The word after at most 65,535 steps of handle reduction. The result is `None` if a step leaves more than 10,000
/// letters. `front` has the letters already read, and has no handle while steps are left. `rest` has the letters still
/// to read in reverse order: its last letter is the next one.
pub fn without_handles(codes: &[u8]) -> Option<Vec<u8>> {
    let (mut front, mut rest): (Vec<u8>, Vec<u8>) = (Vec::new(), codes.iter().rev().copied().collect());
    let mut steps = 0;
    while let Some(letter) = rest.pop() {
        let below = |other: &u8| {
            let (low, high) = (generator(*other), generator(letter));
            low == high || low + 1 == high
        };
        match front.iter().rposition(below) {
            Some(start) if cancels(front[start], letter) && steps < HANDLE_STEPS => {
                let middle = front.split_off(start);
                rest.extend(conjugated(&middle).into_iter().rev());
                steps += 1;
                if front.len() + rest.len() > MOST_LETTERS {
                    return None;
                }
            }
            _ => front.push(letter),
        }
    }
    Some(front)
}

/// The letters that replace a handle. `handle` has its first letter and the letters between its ends. Three letters
/// replace each letter of the next generator. Every other letter between the ends stays.
fn conjugated(handle: &[u8]) -> Vec<u8> {
    let (first, between) = (handle[0], &handle[1..]);
    let next = first + 1;
    let replaced = |letter: &u8| {
        if generator(*letter) == generator(next) {
            vec![next ^ 8, *letter - 1, next]
        } else {
            vec![*letter]
        }
    };
    between.iter().flat_map(replaced).collect()
}
