//! Taking handles out.

use reference::handles::after_steps;
use reference::letter::Letter;
use reference::testkit::Random;
use reference::word::{word_file, MOST_LETTERS};

use crate::operation::prelude::*;

pub struct HandleReduce;

/// The limit of steps as two bytes, high first.
const LIMIT: Part = Part { name: "limit", form: Form::Fixed(2) };

impl Operation for HandleReduce {
    fn facts(&self) -> Facts {
        let facts = Facts::of("handle_reduce", &[15, 9, 10, 11, 12, 13, 32], &[parts::WORD, LIMIT]);
        Facts { output: WORDS, numbers: &["bytes", "left"], slow: &[32], share: 7, ..facts }
    }

    /// Halves the limit until no step leaves more than 10,000 letters. For 32, the first step of the word leaves more,
    /// and the limit is not 0.
    fn make(&self, maker: &mut Maker, _: Field, faults: &[u8], size: Size) -> Option<Parts> {
        let mut codes = maker.codes(size);
        let random = &mut maker.random;
        let (few, most) = (random.within(0, 30) as u16, if size == Size::Long { 1_000 } else { 65_535 });
        let mut limit = random.pick(&[0, 1, 2, few, most]);
        if faults.contains(&32) {
            let over = random.pick(&[1, 2, 300, 15_000]);
            codes = growing(random, MOST_LETTERS + over);
            limit = random.pick(&[1, 2, 65_535]);
        } else {
            while after_steps(&codes, limit).is_none() {
                limit /= 2;
            }
        }
        Some(vec![files::word(random, &codes, faults), limit.to_be_bytes().to_vec()])
    }

    fn call(&self, by: By, input: &Input) -> Outcome {
        let ([word, _], limit) = (input.slices(), u16::from_be_bytes(input.array(1)));
        let (codes, n) = (word.as_ptr(), word.len());
        input.lending(|out| {
            let (bytes, room) = (out.as_mut_ptr(), out.len());
            match by {
                // SAFETY: see `Operation::call`.
                By::Library => {
                    outcome!(unsafe { walnut_handle_reduce(codes, n, limit, bytes, room) }, bytes, left)
                }
                By::Reference => outcome!(reference::handle_reduce(word, limit, out), bytes, left),
            }
        })
    }

    fn fixed(&self) -> Vec<Fixed> {
        let mut cases: Vec<Fixed> = typed()
            .into_iter()
            .map(|(word, limit, new, left)| case(&hex(word), limit).writes(&hex(new)).second(left))
            .collect();
        // b1, then b2 n times, then b1⁻¹: the first step leaves 3 n letters.
        let powers = |n: usize| word_file(&[&[0][..], &vec![1; n], &[8]].concat());
        let step = |n: usize| word_file(&[9, 0, 1].repeat(n));
        cases.push(case(&powers(3_333), 1).writes(&step(3_333)).second(1));
        cases.push(case(&powers(3_334), 1).refused(32));
        cases.push(case(&powers(3_334), 65_535).refused(32));
        cases.push(case(&powers(3_334), 0).writes(&powers(3_334)).second(1));
        // With one b7 before them, 3,333 letters b2 become 10,000 letters. With two b7 before them, they become 10,001.
        let before = |n: usize| word_file(&[&vec![6; n][..], &[0], &[1; 3_333], &[8]].concat());
        let after = word_file(&[&[6][..], &[9, 0, 1].repeat(3_333)].concat());
        cases.push(case(&before(1), 1).writes(&after).second(1));
        cases.push(case(&before(2), 1).refused(32));
        cases.push(case(&hex("27 11"), 0).refused(10));
        cases.push(case(&hex("00 00"), 0).room(5_001).refused(15));
        cases
    }

    fn small(&self, run: &mut Run) -> Checked {
        self.every_short_word(run)?;
        self.far_ends(run)?;
        self.long_words(run)
    }
}

impl HandleReduce {
    /// Every word of up to three letters, and every word of four letters over b3, b4 and b5. Each word is tested with
    /// the limits 0, 1 and 2, and with 65,535, which leaves no handle.
    fn every_short_word(&self, run: &mut Run) -> Checked {
        let all: Vec<u8> = (0..16).filter(|code| Letter::from_code(*code).is_some()).collect();
        let some: Vec<u8> = all.iter().copied().filter(|code| (2..5).contains(&(code % 8))).collect();
        let three = (0..=3).flat_map(|letters| words_over(&all, letters));
        for codes in three.chain(words_over(&some, 4)) {
            for limit in [0, 1, 2, 65_535] {
                run.parts(&HandleReduce, input(&codes, limit), Some(0))?;
            }
        }
        Ok(())
    }

    /// Handles whose ends are far apart, and words with many letters before a handle.
    fn far_ends(&self, run: &mut Run) -> Checked {
        let words = [
            [vec![0; 5_000], [6, 14].repeat(2_500)].concat(),
            [vec![0; 4_999], vec![3; 5_000], vec![8]].concat(),
            [vec![0], [2, 10].repeat(4_999), vec![8]].concat(),
            [vec![6; 3_000], vec![13], vec![0; 3_996], vec![8; 3_000], vec![5, 14, 5]].concat(),
        ];
        for (codes, limit) in words.iter().flat_map(|codes| [1, 2_499, 5_000].map(|limit| (codes, limit))) {
            run.parts(&HandleReduce, input(codes, limit), None)?;
        }
        Ok(())
    }

    /// Long words with the highest limit. Some grow past 10,000 letters on the way, and some reach the limit.
    fn long_words(&self, run: &mut Run) -> Checked {
        for letters in [1_283, 2_000, 4_000, 9_900] {
            let random = &mut run.maker.random;
            for codes in [random.word(letters), random.tangled_word(letters)] {
                run.parts(&HandleReduce, input(&codes, 65_535), None)?;
            }
        }
        Ok(())
    }
}

fn input(codes: &[u8], limit: u16) -> Parts {
    vec![word_file(codes), limit.to_be_bytes().to_vec()]
}

fn case(word: &[u8], limit: u16) -> Fixed {
    let name = format!("{} bytes, {limit} steps", word.len());
    Fixed::of(&HandleReduce, &name, &[word, &limit.to_be_bytes()])
}

/// Every word of this number of letters over these codes.
fn words_over(codes: &[u8], letters: usize) -> Vec<Vec<u8>> {
    match letters {
        0 => vec![vec![]],
        _ => words_over(codes, letters - 1)
            .into_iter()
            .flat_map(|word| codes.iter().map(move |code| [&word[..], &[*code]].concat()))
            .collect(),
    }
}

/// A word of at most 10,000 letters that has `after` letters after its first step. All letters before the second end of
/// its handle have the same sign, so that no handle ends earlier.
fn growing(random: &mut Random, after: usize) -> Vec<u8> {
    let (i, sign) = (random.within(0, 5) as u8, random.pick(&[0, 8]));
    let before = random.within(0, 20);
    let above = random.within((after + 2 - MOST_LETTERS).div_ceil(2), (after - before) / 3);
    let far = if i < 5 { i + 2 } else { 0 };
    let mut codes: Vec<u8> = (0..before).map(|_| sign + random.below(7) as u8).collect();
    codes.push(sign + i);
    codes.extend(vec![sign + i + 1; above]);
    codes.extend(vec![sign + far; after - before - 3 * above]);
    codes.push((8 - sign) + i);
    codes
}

/// Each entry has a word, a limit, the new word, and whether the new word has a handle. The entries are worked out by
/// hand from request §9.
fn typed() -> [(&'static str, u16, &'static str, i64); 14] {
    [
        // b1 b2 b1⁻¹ becomes b2⁻¹ b1 b2. The next three words are b1 b2 b1⁻¹ with other signs.
        ("00 03 01 80", 1, "00 03 90 10", 0),
        ("00 03 09 80", 1, "00 03 98 10", 0),
        ("00 03 81 00", 1, "00 03 10 90", 0),
        ("00 03 89 00", 1, "00 03 18 90", 0),
        // b7⁻¹ b7 has nothing between its ends. With the limit 0 it stays.
        ("00 02 E6", 1, "00 00", 0),
        ("00 02 E6", 0, "00 02 E6", 1),
        ("00 00", 65_535, "00 00", 0),
        // b2 b1 b2⁻¹ is no handle, because b1 stands between b2 and b2⁻¹.
        ("00 03 10 90", 65_535, "00 03 10 90", 0),
        // b1 b3 b1⁻¹ becomes b3, and b1 b1 b1⁻¹ becomes b1.
        ("00 03 02 80", 65_535, "00 01 20", 0),
        ("00 03 00 80", 65_535, "00 01 00", 0),
        // b1 b3 b3⁻¹ b1⁻¹: the first step takes out b3 b3⁻¹, which ends earliest, and leaves b1 b1⁻¹.
        ("00 04 02 A8", 1, "00 02 08", 1),
        // b1 b2 b3 b2⁻¹ b1⁻¹ becomes b1 b3⁻¹ b2 b3 b1⁻¹, and then b3⁻¹ b2⁻¹ b1 b2 b3.
        ("00 05 01 29 80", 1, "00 05 0A 12 80", 1),
        ("00 05 01 29 80", 2, "00 05 A9 01 20", 0),
        // b1 b2 b2 b1⁻¹ becomes b2⁻¹ b1 b2 b2⁻¹ b1 b2, and then b2⁻¹ b1 b1 b2.
        ("00 04 01 18", 2, "00 04 90 01", 0),
    ]
}
