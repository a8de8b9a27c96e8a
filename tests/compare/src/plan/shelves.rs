//! Histories of a key shelf: calls by both publishers, and by publisher numbers that nobody has. Each call gets the
//! shelf that the call before it left. Some histories have random calls. In the others the publishers go to the limits
//! of a round.

use reference::shelf::SHELF_BYTES;
use reference::testkit::Slip;
use reference::word::{read_word, word_file};
use reference::{Field, Shelf};

use crate::case::Input;
use crate::make::shelves::{most, place_of};
use crate::make::{files, Size};
use crate::operation::{By, Op};
use crate::operations::shelf_clear::ShelfClear;
use crate::operations::shelf_judge::ShelfJudge;
use crate::operations::shelf_load::ShelfLoad;
use crate::operations::shelf_round::ShelfRound;
use crate::plan::{Checked, Failure, Run};

/// The number of random histories, and the number of calls in each.
const HISTORIES: usize = 120;
const CALLS: usize = 40;

/// The number of histories that go to the limits of a round.
const ROUNDS: usize = 24;

/// A call with its input, its answer, and the shelf that it left.
struct Call {
    input: Input,
    answer: u8,
    left: Vec<u8>,
}

impl Call {
    fn publisher(&self) -> usize {
        self.input.size(1)
    }

    fn is(&self, operation: Op) -> bool {
        self.input.operation == operation
    }

    /// Is it about a publisher's key number?
    fn is_at(&self, publisher: usize, number: usize) -> bool {
        self.publisher() == publisher && !self.is(&ShelfRound) && self.input.size(2) == number
    }

    /// The letters of a slip that was judged.
    fn letters(&self) -> usize {
        read_word(&self.input.parts[4]).letters
    }
}

/// A history from the empty shelf: its calls.
#[derive(Default)]
struct History(Vec<Call>);

impl History {
    /// The shelf that the calls left.
    fn shelf(&self) -> Vec<u8> {
        self.0.last().map_or(vec![0; SHELF_BYTES], |call| call.left.clone())
    }

    /// The letters charged to a publisher.
    fn charged(&self, publisher: usize) -> usize {
        shelf_of(&self.shelf()).charged()[publisher - 1]
    }

    /// The letters that this round has left for a publisher.
    fn left(&self, publisher: usize) -> usize {
        most(self.charged(3 - publisher)).expect("a history keeps the limits") - self.charged(publisher)
    }
}

fn shelf_of(bytes: &[u8]) -> Shelf {
    Shelf::of(bytes.try_into().expect("a shelf"))
}

fn unexpected(input: &Input, account: &str) -> Checked {
    Err(Box::new(Failure::Unexpected(input.clone(), account.to_string())))
}

impl Run {
    /// Runs the histories. Two of three random ones begin with the empty shelf, the third with any shelf.
    pub fn histories(&mut self) -> Checked {
        for place in 0..HISTORIES {
            let slips: Vec<Slip> = (0..4).map(|_| self.some_slip(Size::Short)).collect();
            let (mut shelf, mut history) = (vec![0; SHELF_BYTES], History::default());
            if place % 3 == 2 {
                shelf = self.maker.shelf();
            }
            for _ in 0..CALLS {
                let input = self.call_on(shelf, &slips);
                shelf = self.call(&mut history, input, None)?;
            }
            if place % 3 != 2 {
                checked(&history)?;
            }
        }
        for place in 0..ROUNDS {
            let history = self.to_the_limits(place)?;
            checked(&history)?;
        }
        Ok(())
    }

    fn some_slip(&mut self, size: Size) -> Slip {
        let (field, codes) = (self.maker.random.field(), self.maker.codes(size));
        self.maker.slip(field, &codes)
    }

    /// Compares a call, and adds it to a history. Returns the shelf that it left.
    fn call(&mut self, history: &mut History, input: Input, expected: Option<u8>) -> Checked<Vec<u8>> {
        let outcome = self.input(input.clone(), expected)?;
        history.0.push(Call { input, answer: outcome.answer, left: outcome.bytes.clone() });
        Ok(outcome.bytes)
    }

    /// A random call on a shelf, with the files of a slip. Most files have no faults.
    fn call_on(&mut self, shelf: Vec<u8>, slips: &[Slip]) -> Input {
        let random = &mut self.maker.random;
        let Slip { key, digest, word } = slips[random.below(slips.len() as u64)].clone();
        let mut place =
            place_of(random.pick(&[1, 1, 1, 2, 2, 2, 0, 3]), random.pick(&[0, 0, 1, 1, 2, 3, 4, 5]));
        let (operation, mut files): (Op, Vec<Vec<u8>>) = match random.below(16) {
            0..=5 => (&ShelfLoad, vec![key]),
            6 | 7 => (&ShelfClear, vec![]),
            8 => (&ShelfRound, vec![]),
            _ => (&ShelfJudge, vec![digest, word]),
        };
        if operation == &ShelfRound as Op {
            place.truncate(1);
        }
        if !files.is_empty() && random.one_in(4) {
            let spoiled = random.below(files.len() as u64);
            files::damage(random, &mut files[spoiled], false);
        }
        let parts = [vec![shelf], place, files].concat();
        self.maker.input(operation, Field::Gf32, parts)
    }

    /// Calls an operation on the shelf that a history left. The papers determine the answer.
    fn next(&mut self, history: &mut History, operation: Op, parts: Vec<Vec<u8>>, expected: u8) -> Checked {
        let parts = [vec![history.shelf()], parts].concat();
        let input = self.maker.input(operation, Field::Gf32, parts);
        self.call(history, input, Some(expected)).map(drop)
    }

    /// Judges a random word of this number of letters by the key under number 0. It is no signature.
    fn judge(&mut self, history: &mut History, publisher: usize, letters: usize, expected: u8) -> Checked {
        let word = word_file(&self.maker.random.tangled_word(letters));
        let held = shelf_of(&history.shelf()).held(publisher, 0).expect("a key is held");
        let digest = self.maker.digest(crate::case::field_of_key(&held));
        let parts = [place_of(publisher, 0), vec![digest, word]].concat();
        self.next(history, &ShelfJudge, parts, expected)
    }

    /// Has a publisher judge words until it is charged this number of letters.
    fn up_to(&mut self, history: &mut History, publisher: usize, charge: usize) -> Checked {
        while history.charged(publisher) < charge {
            let letters = (charge - history.charged(publisher)).min(10_000);
            self.judge(history, publisher, letters, 14)?;
        }
        Ok(())
    }

    /// One publisher judges a long slip, and then more slips up to a chosen charge. The other then takes all letters
    /// that are left. After that a slip of one letter gets 36, and a slip without letters does not. Then either
    /// publisher starts a new round.
    fn to_the_limits(&mut self, place: usize) -> Checked<History> {
        let mut history = History::default();
        let (first, second) = if place.is_multiple_of(2) { (1, 2) } else { (2, 1) };
        let [long, other] = [Size::Long, Size::Short].map(|size| self.some_slip(size));
        for (publisher, slip) in [(first, &long), (second, &other)] {
            let parts = [place_of(publisher, 0), vec![slip.key.clone()]].concat();
            self.next(&mut history, &ShelfLoad, parts, 0)?;
        }
        self.next(&mut history, &ShelfJudge, [place_of(first, 0), vec![long.digest, long.word]].concat(), 0)?;
        let any = self.maker.random.within(10_000, 20_000);
        let charge = [10_000, 10_001, 15_000, 19_999, 20_000, any][place % 6];
        self.up_to(&mut history, first, charge)?;
        let left = history.left(second);
        self.up_to(&mut history, second, left - 1)?;
        self.judge(&mut history, second, 2, 36)?;
        if place.is_multiple_of(3) && history.left(first) > 0 {
            self.judge(&mut history, first, 1, 14)?;
        } else {
            self.judge(&mut history, second, 1, 14)?;
        }
        // each publisher has its own 10,000 letters, and the amounts over 10,000 sum to 10,000
        for publisher in [first, second] {
            self.judge(&mut history, publisher, 1, 36)?;
            self.judge(&mut history, publisher, 0, 14)?;
        }
        self.judge(&mut history, first, 10_000, 36)?;
        self.next(&mut history, &ShelfRound, vec![3_usize.to_be_bytes().to_vec()], 30)?;
        let starts = self.maker.random.within(1, 2).to_be_bytes().to_vec();
        self.next(&mut history, &ShelfRound, vec![starts], 0)?;
        self.judge(&mut history, first, 10_000, 14)?;
        self.judge(&mut history, second, 1, 14)?;
        Ok(history)
    }
}

/// Checks a history from the empty shelf.
fn checked(history: &History) -> Checked {
    charges(history)?;
    (0..=3).try_for_each(|publisher| alone(history, publisher))
}

/// The letters charged are those of the slips that got 0 or 14 since the round began. The amounts over 10,000 sum to at
/// most 10,000, nobody passes 20,000, and a slip that gets 36 would leave its publisher over 10,000.
fn charges(history: &History) -> Checked {
    let mut charged = [0; 2];
    for call in &history.0 {
        let own = call.publisher().wrapping_sub(1);
        match call.answer {
            0 if call.is(&ShelfRound) => charged = [0; 2],
            0 | 14 if call.is(&ShelfJudge) => charged[own] += call.letters(),
            36 if charged[own] + call.letters() <= 10_000 => {
                return unexpected(&call.input, "36 is given for one of the publisher's own 10,000 letters");
            }
            _ => {}
        }
        if shelf_of(&call.left).charged() != charged {
            return unexpected(&call.input, "the letters charged are not those of the slips admitted");
        }
        let over: usize = charged.iter().map(|letters: &usize| letters.saturating_sub(10_000)).sum();
        if over > 10_000 || charged.iter().any(|letters| *letters > 20_000) {
            return unexpected(&call.input, "a limit of the round is passed");
        }
    }
    Ok(())
}

/// Repeats the calls of one publisher alone, from the empty shelf. The library must give the same answers. Exception:
/// 36 may come in place of 0 or 14, or 0 or 14 in place of 36. At the end, in both shelves, each key number of the
/// publisher must hold the file of its last accepted load, or no file if an accepted clear came later.
fn alone(history: &History, publisher: usize) -> Checked {
    let mut shelf = vec![0; SHELF_BYTES];
    for call in history.0.iter().filter(|call| call.publisher() == publisher) {
        let mut input = call.input.clone();
        input.parts[0] = shelf;
        let outcome = input.outcome(By::Library);
        let answers = [outcome.answer, call.answer];
        let excepted = answers.contains(&36) && answers.iter().all(|answer| [0, 14, 36].contains(answer));
        if outcome.answer != call.answer && !excepted {
            return unexpected(&input, "the publisher's calls alone give another answer than the history");
        }
        shelf = outcome.bytes;
    }
    let held = |bytes: &[u8], number| shelf_of(bytes).held(publisher, number);
    for number in 0..=5 {
        let mut own = history.0.iter().filter(|call| call.is_at(publisher, number));
        let last = own.rfind(|call| call.answer == 0 && !call.is(&ShelfJudge));
        let file = last.filter(|call| call.is(&ShelfLoad)).map(|call| call.input.parts[3].clone());
        if [held(&history.shelf(), number), held(&shelf, number)] != [file.clone(), file] {
            return unexpected(&history.0[history.0.len() - 1].input, "a key number holds the wrong file");
        }
    }
    Ok(())
}
