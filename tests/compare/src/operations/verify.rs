//! The verdict.

use reference::key::layout;
use reference::pair::TValues;
use reference::testkit::{accepted_slip, Random, Slip};
use reference::word::word_file;
use reference::{letters, read_key, start, verify, Pair};

use crate::operation::prelude::*;
use crate::shrink::cut;

pub struct Verify;

impl Operation for Verify {
    fn facts(&self) -> Facts {
        let questions = &[1, 2, 3, 4, 5, 6, 7, 26, 8, 9, 10, 11, 12, 13, 14];
        let facts = Facts::of("verify", questions, &[parts::KEY, parts::DIGEST, parts::WORD]);
        Facts { over: Over::Key, share: 4, ..facts }
    }

    /// Without faults an accepted slip. With fault 14 alone, an accepted slip with one bit of the second matrix
    /// flipped. With other faults mostly a random key, digest and word.
    fn make(&self, maker: &mut Maker, field: Field, faults: &[u8], size: Size) -> Option<Parts> {
        let codes = maker.codes(size);
        let mut slip = if faults.is_empty() || faults == [14] || maker.random.one_in(20) {
            maker.slip(field, &codes)
        } else {
            let (key, digest) = (maker.random.invertible_key(field), maker.digest(field));
            Slip { key, digest, word: word_file(&codes) }
        };
        let random = &mut maker.random;
        if faults.contains(&14) {
            flip_second_matrix(random, field, &mut slip.key);
        }
        Some(vec![
            files::key(random, field, &slip.key, faults),
            files::digest(random, field, &slip.digest, faults),
            files::word(random, &codes, faults),
        ])
    }

    fn call(&self, by: By, input: &Input) -> Outcome {
        let [key, digest, word] = input.slices();
        let (file, n) = (key.as_ptr(), key.len());
        Outcome::of(match by {
            By::Library => unsafe {
                // SAFETY: see `Operation::call`.
                walnut_verify(file, n, digest.as_ptr(), digest.len(), word.as_ptr(), word.len())
            },
            By::Reference => verify(key, digest, word),
        })
    }

    /// The braid of 64 zero bytes is b7, 256 times. The T-values of b7 are 6 and 7, and 6 × 7 = 18. So 2 k letters have
    /// 18^k in row 7, column 7. For 128 letters, or for none, the order of 18 would have to divide 64 or 128. But it
    /// divides 255, and 18 is not 1. Under permutation matrices the empty word gets 14: letters b7 change only row 7,
    /// and the two matrices differ in row 1.
    fn fixed(&self) -> Vec<Fixed> {
        let [small, large] = Field::BOTH.map(keys::plain);
        let judge = |name: &str, key: &[u8], digest: &[u8], word: &[u8]| {
            Fixed::of(&Verify, name, &[key, digest, word])
        };
        let mut cases = vec![
            judge("b7, 128 times, for 32 zero bytes", &small, &[0; 32], &sevens(128)),
            judge("the empty word", &small, &[0; 32], &[0, 0]).refused(14),
            judge("no bytes", &[], &[], &[]).refused(1),
            judge("b7, 256 times, for 64 zero bytes", &large, &[0; 64], &sevens(256)),
            judge("b7, 128 times, for 64 zero bytes", &large, &[0; 64], &sevens(128)).refused(14),
            judge("the empty word for 64 zero bytes", &large, &[0; 64], &[0, 0]).refused(14),
            judge("the large key with 32 bytes", &large, &[0; 32], &sevens(128)).refused(8),
            judge("the small key with 64 bytes", &small, &[0; 64], &sevens(256)).refused(8),
            judge("the large key with 32 bytes and no word", &large, &[0; 32], &[]).refused(8),
            judge("the large key and no word", &large, &[0; 64], &[]).refused(9),
            judge("permutation matrices", &keys::permutations().file, &[0; 32], &[0, 0]).refused(14),
        ];
        cases.extend(insertions());
        for (name, key, answer) in keys::refused() {
            cases.push(judge(&name, &key, &[0; 64], &[0, 0]).refused(answer));
            cases.push(judge(&name, &key, &[], &[]).refused(answer));
        }
        cases
    }

    /// Digests of each length with an accepted key and word. Only the length that goes with the key is accepted.
    fn small(&self, run: &mut Run) -> Checked {
        for field in Field::BOTH {
            let codes = run.maker.random.tangled_word(5);
            let Slip { key, digest, word } = run.maker.slip(field, &codes);
            for length in 0..=130 {
                let mut other = digest.clone();
                other.resize(length, 0);
                let expected = if length == field.digest_bytes() { 0 } else { 8 };
                run.parts(&Verify, vec![key.clone(), other, word.clone()], Some(expected))?;
            }
        }
        Ok(())
    }

    /// Replaces an accepted slip by one with a plainer key, a digest of zeros and fewer letters, and solves it for a
    /// new second matrix.
    fn shrunk(&self, shrinker: &Shrinker, input: Input) -> Input {
        let Some(mut source) = Source::of(&input) else { return input };
        let plainer: [fn(&Source) -> Source; 3] = [
            |source| Source { digest: vec![0; source.digest.len()], ..source.clone() },
            |source| Source { pair: start(), ..source.clone() },
            |source| Source { t_values: T_VALUES, ..source.clone() },
        ];
        for change in plainer {
            let (changed, before) = (change(&source), source.solved(&input));
            let solved = changed.solved(&input);
            if weight(&solved) < weight(&before) && shrinker.fails(&solved) {
                source = changed;
            }
        }
        let shorter = |codes: &[u8]| Source { codes: codes.to_vec(), ..source.clone() }.solved(&input);
        let codes =
            cut(source.codes.clone(), &|codes| shrinker.has_time() && shrinker.fails(&shorter(codes)));
        Some(shorter(&codes)).filter(|solved| weight(solved) < weight(&input)).unwrap_or(input)
    }
}

/// Words inserted before b7 repeated, which is accepted alone (document 02, section 12). b1 b1 cloaks for 0 to 7. After
/// b2 the list is 0 2 1 3 to 7, and the T-values at positions 1 and 2 are 1 and 2. b1 b1 does not cloak for this list.
/// 62 letters b1 cloak for it over 32 elements, where 2^31 = 1, but not over 256, where 2 has the order 255.
fn insertions() -> Vec<Fixed> {
    let many = format!("10 {}09", "00 ".repeat(30));
    let fronts = [
        ("b1 b1", "00", [0, 0]),
        ("b2 b1 b1 b2⁻¹", "10 09", [14, 14]),
        ("b2, b1 62 times, b2⁻¹", &many, [0, 14]),
    ];
    let mut cases = Vec::new();
    for (field, place) in Field::BOTH.into_iter().zip(0..) {
        let digest = vec![0; field.digest_bytes()];
        for (name, front, answers) in &fronts {
            let codes = [hex(front), vec![0x66; 2 * digest.len()]].concat();
            let word = [&(2 * codes.len() as u16).to_be_bytes(), &codes[..]].concat();
            let case = Fixed::of(&Verify, name, &[&keys::plain(field), &digest, &word]);
            cases.push(if answers[place] == 0 { case } else { case.refused(answers[place]) });
        }
    }
    cases
}

/// Flips one bit of the second matrix of an accepted key file. The new matrix has an inverse too.
pub fn flip_second_matrix(random: &mut Random, field: Field, file: &mut [u8]) {
    let second = &layout(field).second;
    loop {
        let bit = random.within(second.start, second.end - 1);
        file[bit / 8] ^= 0x80 >> (bit % 8);
        if read_key(file).answer == 0 {
            return;
        }
        file[bit / 8] ^= 0x80 >> (bit % 8);
    }
}

/// The parts of an accepted slip, without the second matrix, which is solved for.
#[derive(Clone)]
struct Source {
    field: Field,
    t_values: TValues,
    pair: Pair,
    digest: Vec<u8>,
    codes: Vec<u8>,
}

impl Source {
    /// The source of an accepted input. `None` if the input is refused.
    fn of(input: &Input) -> Option<Source> {
        let [file, digest, word] = input.slices();
        if verify(file, digest, word) != 0 {
            return None;
        }
        let key = read_key(file);
        let (digest, codes) = (digest.to_vec(), letters(word));
        Some(Source { field: key.field, t_values: key.t_values, pair: key.pair, digest, codes })
    }

    /// The input with its slip replaced by the accepted slip of this source.
    fn solved(&self, input: &Input) -> Input {
        let slip = accepted_slip(self.field, &self.t_values, &self.pair, &self.digest, &self.codes);
        Input { parts: vec![slip.key, slip.digest, slip.word], ..input.clone() }
    }
}

/// The size of an input: the number of its bytes, then their sum.
fn weight(input: &Input) -> (usize, usize) {
    let bytes = || input.parts.iter().flatten();
    (bytes().count(), bytes().map(|byte| usize::from(*byte)).sum())
}
