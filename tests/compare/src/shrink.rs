//! Makes a failing input smaller, as long as it still fails: cuts letters, moves and bytes, and lowers numbers.

pub mod items;

use std::time::{Duration, Instant};

use reference::testkit::move_list;
use reference::Field;

use crate::case::Input;
use crate::operation::Form;
use items::{filler, move_items, word_items, word_of, Item};

/// The longest time that is spent on shrinking.
const PATIENCE: Duration = Duration::from_secs(20);

/// The smallest failing input that is found.
pub fn smallest(input: Input, fails: &dyn Fn(&Input) -> bool) -> Input {
    let shrinker = Shrinker { fails, end: Instant::now() + PATIENCE };
    let mut input = input;
    loop {
        let smaller = shrinker.pass(input.clone());
        if smaller == input {
            return input;
        }
        input = smaller;
    }
}

/// A function that makes a part from its items.
type File<'a, T> = &'a dyn Fn(&[T]) -> Vec<u8>;

/// The input with the part at a place replaced.
fn with_part(input: &Input, place: usize, part: Vec<u8>) -> Input {
    let mut other = input.clone();
    other.parts[place] = part;
    other
}

/// The test of an input, and the time when shrinking ends.
pub struct Shrinker<'a> {
    fails: &'a dyn Fn(&Input) -> bool,
    end: Instant,
}

impl Shrinker<'_> {
    /// Is there still time?
    pub fn has_time(&self) -> bool {
        Instant::now() < self.end
    }

    /// Does the input still fail, and is there still time?
    pub fn fails(&self, input: &Input) -> bool {
        self.has_time() && (self.fails)(input)
    }

    /// Makes the field, the output and each part smaller once. Parts that shrink together come before single parts.
    /// Words come last, because they take longest.
    fn pass(&self, input: Input) -> Input {
        let (operation, parts) = (input.operation, input.facts().parts);
        let input = self.room(self.field(input));
        let input = (0..parts.len()).fold(input, |input, place| self.plain(input, place));
        let input = operation.shrunk(self, input);
        let (words, others): (Vec<usize>, Vec<usize>) =
            (0..parts.len()).partition(|place| parts[*place].form == Form::Word);
        let input = others.into_iter().fold(input, |input, place| self.part(input, place));
        let input = words.iter().fold(input, |input, place| self.plain(input, *place));
        words.into_iter().fold(input, |input, place| self.part(input, place))
    }

    /// The first of `smaller` that still fails, or the input if none fails.
    fn first(&self, input: Input, mut smaller: impl Iterator<Item = Input>) -> Input {
        smaller.find(|smaller| self.fails(smaller)).unwrap_or(input)
    }

    /// Replaces the larger field by the smaller.
    fn field(&self, input: Input) -> Input {
        let smaller = Some(Input { named: Field::Gf32, ..input.clone() }).filter(|_| input.large());
        self.first(input, smaller.into_iter())
    }

    /// Makes the output smaller.
    fn room(&self, input: Input) -> Input {
        let Some(least) = input.facts().least_room(input.named) else { return input };
        let rooms = [0, least.saturating_sub(1), least, least + 1].into_iter();
        let smaller = rooms.filter(|room| *room < input.room).map(|room| Input { room, ..input.clone() });
        self.first(input.clone(), smaller)
    }

    /// Replaces one part by a plain one: all zeros, zeros after the first two bytes, or the numbers from 0 on.
    fn plain(&self, input: Input, place: usize) -> Input {
        let part = &input.parts[place];
        let head = part.iter().enumerate().map(|(place, byte)| if place < 2 { *byte } else { 0 }).collect();
        let counted = (0..part.len()).map(|number| number as u8).collect();
        let plain = [vec![0; part.len()], head, counted].into_iter().filter(|plain| plain < part);
        self.first(input.clone(), plain.map(|plain| with_part(&input, place, plain)))
    }

    /// Cuts and lowers one part.
    fn part(&self, input: Input, place: usize) -> Input {
        let part = input.parts[place].clone();
        let plain = |bytes: &[u8]| bytes.to_vec();
        match input.facts().parts[place].form {
            Form::Fixed(_) => {
                let fails = |bytes: &[u8]| self.fails(&with_part(&input, place, bytes.to_vec()));
                with_part(&input, place, lower(part, &fails))
            }
            Form::Word => match word_items(&part) {
                Some(letters) => self.items(input, place, letters, &|items| word_of(items, filler(&part))),
                None => self.items(input, place, part, &plain),
            },
            Form::Moves => match move_items(&part) {
                Some(moves) => self.items(input, place, moves, &move_list),
                None => self.items(input, place, part, &plain),
            },
            Form::Bytes => self.items(input, place, part, &plain),
        }
    }

    /// Cuts and lowers one part, item by item.
    fn items<T: Item>(&self, input: Input, place: usize, items: Vec<T>, file: File<T>) -> Input {
        let fails = |items: &[T]| self.fails(&with_part(&input, place, file(items)));
        let items = lower(cut(items, &fails), &fails);
        with_part(&input, place, file(&items))
    }
}

/// Cuts all items that the failure does not need. Longer runs are tried first.
pub fn cut<T: Item>(mut items: Vec<T>, fails: &dyn Fn(&[T]) -> bool) -> Vec<T> {
    let mut size = items.len();
    while size > 0 {
        let mut from = 0;
        while from < items.len() {
            let mut shorter = items.clone();
            shorter.drain(from..items.len().min(from + size));
            if fails(&shorter) {
                items = shorter;
            } else {
                from += size;
            }
        }
        size /= 2;
    }
    items
}

/// Lowers the items as far as possible: first whole runs, longer runs before shorter ones, then single items.
fn lower<T: Item>(mut items: Vec<T>, fails: &dyn Fn(&[T]) -> bool) -> Vec<T> {
    let mut size = items.len();
    while size > 1 {
        for from in (0..items.len()).step_by(size) {
            let end = items.len().min(from + size);
            let mut lower = items.clone();
            lower[from..end].fill(T::LEAST);
            if lower != items && fails(&lower) {
                items = lower;
            }
        }
        size /= 2;
    }
    (0..items.len()).fold(items, |items, place| lower_one(items, place, fails))
}

/// Lowers one item as far as possible.
fn lower_one<T: Item>(mut items: Vec<T>, place: usize, fails: &dyn Fn(&[T]) -> bool) -> Vec<T> {
    let old = items[place];
    for item in old.lower() {
        items[place] = item;
        if fails(&items) {
            return items;
        }
    }
    items[place] = old;
    items
}

#[cfg(test)]
mod tests {
    use super::*;
    use crate::fixed::TURNED_LISTS;
    use crate::operation::Op;
    use crate::operations::read_word::ReadWord;
    use crate::operations::rewrite::Rewrite;
    use crate::operations::ALL;

    fn input(operation: Op, parts: Vec<Vec<u8>>, room: usize) -> Input {
        Input { operation, named: Field::Gf256, parts, room, fill: 0 }
    }

    fn named(name: &str) -> Op {
        ALL.into_iter().find(|operation| operation.facts().name == name).expect("it is listed")
    }

    fn rewriting(word: Vec<u8>, moves: Vec<u8>) -> Input {
        input(&Rewrite, vec![word, moves], 5_100)
    }

    /// Letters, moves and the output shrink to what the failure needs.
    #[test]
    fn letters_and_moves_are_cut() {
        let input = rewriting(vec![0, 5, 0x12, 0x3E, 0x40], vec![0, 2, 0, 1, 0, 3, 2, 22]);
        let fails = |input: &Input| {
            let letters = word_items(&input.parts[0]);
            let moves = move_items(&input.parts[1]);
            letters.is_some_and(|letters| letters.contains(&0xE))
                && moves.is_some_and(|moves| moves.iter().any(|step| step.kind == 22))
        };
        let smallest = smallest(input, &fails);
        assert_eq!(smallest.parts, [vec![0, 1, 0xE0], vec![0, 1, 0, 0, 22]]);
        assert_eq!(smallest.room, 0);
    }

    /// If letters before a move are cut, its place is lowered, so that the move keeps its letters.
    #[test]
    fn places_follow_the_letters() {
        let input = rewriting(vec![0, 6, 0x11, 0x11, 0x08], vec![0, 1, 0, 4, 1]);
        let fails = |input: &Input| {
            let mut out = vec![0; 5_002];
            reference::rewrite(&input.parts[0], &input.parts[1], &mut out).answer == 0
                && input.parts[1].len() == 5
                && input.parts[1][4] == 1
        };
        assert_eq!(smallest(input, &fails).parts, [vec![0, 2, 0x08], vec![0, 1, 0, 0, 1]]);
    }

    /// Damaged files shrink byte by byte. Fixed parts keep their length.
    #[test]
    fn bytes_and_fixed_parts() {
        let bytes = input(&ReadWord, vec![vec![9, 9, 9, 7, 9]], 0);
        assert_eq!(smallest(bytes, &|input| input.parts[0].contains(&7)).parts, [[7]]);
        let parts = vec![vec![9; 64], TURNED_LISTS.to_vec(), vec![3; 8], vec![14]];
        let pair = input(named("multiply"), parts, 0);
        let lists = vec![0, 1, 2, 3, 4, 5, 6, 7, 0, 0, 0, 0, 0, 0, 0, 0];
        let fails = |input: &Input| reference::questions::is_each_label_once(&input.parts[1][..8]);
        let smallest = smallest(pair, &fails);
        assert_eq!(smallest.parts, [vec![0; 64], lists, vec![0; 8], vec![0]]);
        assert_eq!(smallest.named, Field::Gf32);
    }

    /// The larger field stays if the failure needs it.
    #[test]
    fn larger_field_stays() {
        let product = input(named("product"), vec![vec![200, 90]], 0);
        let fails = |input: &Input| input.named == Field::Gf256 && input.parts[0][0] >= 128;
        let smallest = smallest(product, &fails);
        assert_eq!((smallest.named, smallest.parts), (Field::Gf256, vec![vec![128, 0]]));
    }
}
