//! How words spread over the lists of four labels (document 02, section 13).
//!
//! For up to eight letters this module makes every word and follows it letter by letter. For more letters the numbers
//! are a row of a power of a 24 by 24 matrix. An entry of that matrix is the number of letters that lead from one list
//! to another.

use std::array::from_fn;
use std::sync::OnceLock;

use crate::letter::Letter;
use crate::questions::first_no;

/// The number of strands.
const STRANDS: usize = 4;

/// The most letters of a word.
const LONGEST: usize = 12;

/// The most letters for which every word is made.
const EVERY: usize = 8;

/// The answer, and how many words end in the list. On a refusal `words` is 0.
#[derive(Clone, Copy, Debug, PartialEq, Eq)]
pub struct Count {
    pub answer: u8,
    pub words: u32,
}

type List = [u8; STRANDS];
type Numbers = [u64; 24];
type Matrix = [Numbers; 24];

/// b1, b2, b3 and their inverses.
fn six() -> Vec<Letter> {
    let letters =
        (1..STRANDS).flat_map(|generator| [false, true].map(|inverse| Letter { generator, inverse }));
    letters.collect()
}

/// The list after a letter.
fn turned(mut list: List, letter: Letter) -> List {
    list.swap(letter.generator - 1, letter.generator);
    list
}

/// The 24 lists that hold each of the four labels once, in increasing order.
pub fn lists() -> Vec<List> {
    let all = (0..256).map(|number: u32| from_fn(|place| (number >> (6 - 2 * place) & 3) as u8));
    all.filter(|list: &List| (0..4).all(|label| list.contains(&label))).collect()
}

/// The place of a list among the 24.
fn place(list: &List) -> usize {
    lists().iter().position(|other| other == list).unwrap_or(0)
}

/// For each list, the number of words of the length that end in it. Makes every word, one after another.
pub fn by_every_word(length: usize) -> Numbers {
    let (letters, lists) = (six(), lists());
    let mut numbers = [0; 24];
    for mut word in 0..6_usize.pow(length as u32) {
        let mut list = [0, 1, 2, 3];
        for _ in 0..length {
            list = turned(list, letters[word % 6]);
            word /= 6;
        }
        let at = lists.iter().position(|other| *other == list);
        numbers[at.expect("a list of the four labels")] += 1;
    }
    numbers
}

fn product(a: &Matrix, b: &Matrix) -> Matrix {
    from_fn(|row| from_fn(|column| (0..24).map(|k| a[row][k] * b[k][column]).sum()))
}

/// For each list, the number of words of the length that end in it. Finds a power of the matrix by repeated squaring.
pub fn by_a_power(length: usize) -> Numbers {
    let lists = lists();
    let reaches = |from: usize, to: usize| {
        six().iter().filter(|letter| turned(lists[from], **letter) == lists[to]).count()
    };
    let mut square: Matrix = from_fn(|from| from_fn(|to| reaches(from, to) as u64));
    let mut power: Matrix = from_fn(|row| from_fn(|column| u64::from(row == column)));
    let mut rest = length;
    while rest > 0 {
        if rest % 2 == 1 {
            power = product(&power, &square);
        }
        square = product(&square, &square);
        rest /= 2;
    }
    power[place(&[0, 1, 2, 3])]
}

/// For each list, the number of words of an accepted length that end in it. Each length is computed once.
fn numbers(length: usize) -> &'static Numbers {
    static ALL: [OnceLock<Numbers>; LONGEST + 1] = [const { OnceLock::new() }; LONGEST + 1];
    ALL[length].get_or_init(|| if length <= EVERY { by_every_word(length) } else { by_a_power(length) })
}

/// How many words of a length end in a list. Answer: 35.
pub fn words_ending(length: usize, labels: &[u8]) -> Count {
    let asked = |(length, labels): &(usize, Vec<u8>)| {
        let mut sorted = labels.clone();
        sorted.sort_unstable();
        *length <= LONGEST && sorted == [0, 1, 2, 3]
    };
    match first_no(&[(35, asked)], &(length, labels.to_vec())) {
        0 => Count { answer: 0, words: numbers(length)[place(&from_fn(|k| labels[k]))] as u32 },
        answer => Count { answer, words: 0 },
    }
}
