//! Cloaking (document 01, "Verdict and cloaking"; source 003, definition 4.1).

use crate::key::{read_key, Key};
use crate::matrix::identity;
use crate::pair::{carried, Labels, Pair};
use crate::questions::{first_no, first_refusal, is_each_label_once};
use crate::word::{letters, word_answer};

/// The answer, and whether the word cloaks. On a refusal `yes` is false.
#[derive(Clone, Copy, Debug, PartialEq, Eq)]
pub struct Cloak {
    pub answer: u8,
    pub yes: bool,
}

/// The answer to the question about the list: 25 if it does not hold the labels 0 to 7, each once; otherwise 0.
fn list_answer(labels: &[u8]) -> u8 {
    first_no(&[(25, is_each_label_once)], labels)
}

/// Does the word carry the identity matrix with this list back to itself, over the key's field? Both the matrix and the
/// list must come back.
fn leaves_unchanged(key: &Key, labels: Labels, codes: &[u8]) -> bool {
    let pair = Pair::of(identity(), labels);
    carried(key.field, &pair, &key.t_values, codes) == pair
}

/// Does the word cloak for the list under the key's T-values? Answers: the key's 1 to 7 and 26, then 25, then
/// the word's 9 to 13.
pub fn cloaks(key: &[u8], labels: &[u8], word: &[u8]) -> Cloak {
    let key = read_key(key);
    let answer = first_refusal(&[key.answer, list_answer(labels), word_answer(word)]);
    let list = Labels::try_from(labels).ok().filter(|_| answer == 0);
    let yes = list.is_some_and(|labels| leaves_unchanged(&key, labels, &letters(word)));
    Cloak { answer, yes }
}
