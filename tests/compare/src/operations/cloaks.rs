//! Cloaking.

use reference::letter::letters_of;
use reference::pair::Labels;
use reference::word::MOST_LETTERS;

use crate::operation::prelude::*;

pub struct Cloaks;

const CLOAKED: Part = Part { name: "list", form: Form::Bytes };

impl Operation for Cloaks {
    fn facts(&self) -> Facts {
        let questions = &[1, 2, 3, 4, 5, 6, 7, 26, 25, 9, 10, 11, 12, 13];
        let facts = Facts::of("cloaks", questions, &[parts::KEY, CLOAKED, parts::WORD]);
        Facts { over: Over::Key, numbers: &["yes"], reached: &[0, 1], ..facts }
    }

    fn make(&self, maker: &mut Maker, field: Field, faults: &[u8], size: Size) -> Option<Parts> {
        let (labels, codes) = match maker.random.below(3) {
            0 => (maker.random.labels(), maker.codes(size)),
            _ => {
                let half = maker.codes(size).len() / 2;
                cloaking(maker, half.min(MOST_LETTERS / 2 - 1))
            }
        };
        let key = maker.key(field, faults);
        Some(vec![key, list(maker, labels, faults), files::word(&mut maker.random, &codes, faults)])
    }

    fn call(&self, by: By, input: &Input) -> Outcome {
        let [key, labels, word] = input.slices();
        let (file, n, list, m) = (key.as_ptr(), key.len(), labels.as_ptr(), labels.len());
        match by {
            // SAFETY: see `Operation::call`.
            By::Library => {
                outcome!(unsafe { walnut_cloaks(file, n, list, m, word.as_ptr(), word.len()) }, yes)
            }
            By::Reference => outcome!(reference::cloaks(key, labels, word), yes),
        }
    }

    fn fixed(&self) -> Vec<Fixed> {
        small_keys().into_iter().chain(large_keys()).chain(refusals()).collect()
    }
}

fn case(name: &str, key: &[u8], labels: &[u8], word: &[u8]) -> Fixed {
    Fixed::of(&Cloaks, name, &[key, labels, word])
}

/// Under the plain key labels 0 and 1 have T-value 1, so b3 b3 cloaks for lists with these labels at positions 3 and 4
/// (source 000, section 5.2). Under T-values 1 1 2 2 4 5 6 7, 31 letters b3 bring the matrix back, since 2^31 = 1, but
/// not the list.
fn small_keys() -> Vec<Fixed> {
    let (plain, equal) = (keys::plain(Field::Gf32), keys::with_equal_t_values(Field::Gf32));
    let many = hex(&format!("00 1F {}20", "22 ".repeat(15)));
    let cloaks =
        |name: &str, list: [u8; 8], word: &str, yes| case(name, &plain, &list, &hex(word)).number(yes);
    vec![
        cloaks("b1 b1 for 0 to 7", LIST, "00 02 00", 1),
        cloaks("b3 b3 for 0 to 7", LIST, "00 02 22", 0),
        cloaks("the empty word for 0 to 7", LIST, "00 00", 1),
        cloaks("b3 b3 for 2 3 0 1 4 5 6 7", [2, 3, 0, 1, 4, 5, 6, 7], "00 02 22", 1),
        cloaks("b3⁻¹ b3⁻¹ for 2 3 1 0 4 5 6 7", [2, 3, 1, 0, 4, 5, 6, 7], "00 02 AA", 1),
        cloaks("b1 for 0 to 7", LIST, "00 01 00", 0),
        case("b3, 31 times, list changed", &equal, &LIST, &many).number(0),
        case("permutation matrices", &keys::permutations().file, &LIST, &hex("00 02 00")).number(1),
    ]
}

/// Under T-values 1 1 2 2 4 5 6 7, 255 letters b3 bring the matrix back, since t^255 = 1 for all elements but zero. 510
/// letters also bring the list back. In the smaller field 62 letters are enough, since t^31 = 1 there. In the larger
/// field they are not, since x has the order 255.
fn large_keys() -> Vec<Fixed> {
    let (plain, equal) = (keys::plain(Field::Gf256), keys::with_equal_t_values(Field::Gf256));
    let threes = |head: &str, bytes: usize| [hex(head), vec![0x22; bytes]].concat();
    vec![
        case("b1 b1", &plain, &LIST, &hex("00 02 00")).number(1),
        case("b3 b3", &plain, &LIST, &hex("00 02 22")).number(0),
        case("b3, 510 times", &equal, &LIST, &threes("01 FE", 255)).number(1),
        case("b3, 62 times", &equal, &LIST, &threes("00 3E", 31)).number(0),
    ]
}

fn refusals() -> Vec<Fixed> {
    let without_list = |field| case("a list of no bytes", &keys::plain(field), &[], &[]).refused(25);
    let mut cases = Vec::from(Field::BOTH.map(without_list));
    for (name, key, answer) in keys::refused() {
        cases.push(case(&name, &key, &LIST, &[0, 0]).refused(answer));
        cases.push(case(&name, &key, &[], &[]).refused(answer));
    }
    cases
}

/// A list, and a word that cloaks for it: w b_i b_i w⁻¹, where w takes labels 0 and 1 of the list to positions i and
/// i + 1. In a key the T-values of labels 0 and 1 are 1.
fn cloaking(maker: &mut Maker, letters: usize) -> (Labels, Vec<u8>) {
    let (w, i) = (maker.random.word(letters), maker.random.below(7));
    let mut places = [0, 1, 2, 3, 4, 5, 6, 7];
    for letter in letters_of(&w) {
        places.swap(letter.generator - 1, letter.generator);
    }
    let mut labels = maker.random.labels();
    for (label, place) in [(0, places[i]), (1, places[i + 1])] {
        let from = labels.iter().position(|other| *other == label).expect("each label is there");
        labels.swap(from, place);
    }
    let back = w.iter().rev().map(|code| code ^ 8);
    let codes = w.iter().copied().chain([i as u8, i as u8]).chain(back).collect();
    (labels, codes)
}

/// The list as bytes. Fault: 25.
fn list(maker: &mut Maker, labels: Labels, faults: &[u8]) -> Vec<u8> {
    let (random, mut file) = (&mut maker.random, labels.to_vec());
    if !faults.contains(&25) {
        return file;
    }
    let (from, to) = files::two_places(random);
    match random.below(3) {
        0 => files::change_length(random, &mut file, 0),
        1 => file[to] = file[from],
        _ => file[to] = random.within(8, 255) as u8,
    }
    file
}
