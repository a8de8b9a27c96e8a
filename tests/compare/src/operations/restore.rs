//! Restores a word from its stored form.

use reference::stored::stored_form;
use reference::testkit::Random;
use reference::word::{word_file, MOST_LETTERS};

use crate::operation::prelude::*;
use crate::operations::store::{typed_pairs, Store};

pub struct Restore;

const STORED: Part = Part { name: "stored form", form: Form::Bytes };

impl Operation for Restore {
    /// Question 28 comes before 10 and again after it. The facts have it only before 10, so an input with both faults
    /// must have fewer than six bytes. `small` tests 10 with sizes that disagree.
    fn facts(&self) -> Facts {
        let facts = Facts::of("restore", &[15, 28, 10, 29], &[STORED]);
        Facts { output: WORDS, numbers: &["bytes"], share: 9, ..facts }
    }

    fn make(&self, maker: &mut Maker, _: Field, faults: &[u8], size: Size) -> Option<Parts> {
        let codes = maker.codes(size);
        Some(vec![spoiled(&mut maker.random, codes, faults)])
    }

    fn call(&self, by: By, input: &Input) -> Outcome {
        let [stored] = input.slices();
        input.lending(|out| {
            let (bytes, room) = (out.as_mut_ptr(), out.len());
            match by {
                // SAFETY: see `Operation::call`.
                By::Library => {
                    outcome!(unsafe { walnut_restore(stored.as_ptr(), stored.len(), bytes, room) }, bytes)
                }
                By::Reference => outcome!(reference::restore(stored, out), bytes),
            }
        })
    }

    fn fixed(&self) -> Vec<Fixed> {
        let mut cases: Vec<Fixed> = typed_pairs()
            .into_iter()
            .map(|(name, word, form)| Fixed::of(&Restore, name, &[&form]).writes(&word))
            .collect();
        let refused = [
            ("five bytes", "27 11 00 00 00", 28),
            ("10,001 letters and other sizes", "27 11 00 00 00 00", 10),
            ("two bytes of signs", "00 01 00 02 00 01 00 00 00", 28),
            ("two bytes of generators", "00 01 00 01 00 02 00 00 00", 28),
            ("a byte missing", "00 01 00 01 00 01 00", 28),
            ("a byte added", "00 01 00 01 00 01 00 00 00", 28),
            ("a byte added, and generator 7", "00 01 00 01 00 01 00 E0 00", 28),
            ("generator 7", "00 01 00 01 00 01 00 E0", 29),
            ("filler after the signs", "00 01 00 01 00 01 01 00", 29),
            ("filler after the generators", "00 01 00 01 00 01 00 10", 29),
        ];
        cases.extend(
            refused.map(|(name, form, answer)| Fixed::of(&Restore, name, &[&hex(form)]).refused(answer)),
        );
        cases.push(Fixed::of(&Restore, "room of 5,001 bytes", &[&hex("00 00")]).room(5_001).refused(15));
        cases
    }

    fn small(&self, run: &mut Run) -> Checked {
        self.every_size(run)?;
        self.every_row_of_one_letter(run)?;
        self.every_bit(run)?;
        self.too_many_letters(run)?;
        self.there_and_back(run)
    }
}

impl Restore {
    /// Every combination of small sizes, with every file length up to 20 bytes.
    fn every_size(&self, run: &mut Run) -> Checked {
        for (letters, signs) in (0..=17).flat_map(|letters| (0..=4).map(move |signs| (letters, signs))) {
            for (generators, length) in (0..=7).flat_map(|size| (0..=20).map(move |length| (size, length))) {
                let mut form = vec![0, letters, 0, signs, 0, generators];
                form.resize(length, 0);
                run.parts(&Restore, vec![form], None)?;
            }
        }
        Ok(())
    }

    /// One letter, with every byte of signs and every byte of generators.
    fn every_row_of_one_letter(&self, run: &mut Run) -> Checked {
        for (signs, generators) in (0..=255).flat_map(|signs| (0..=255).map(move |byte| (signs, byte))) {
            run.parts(&Restore, vec![vec![0, 1, 0, 1, 0, 1, signs, generators]], None)?;
        }
        Ok(())
    }

    /// Stored forms of up to 17 letters, with each bit flipped, one at a time.
    fn every_bit(&self, run: &mut Run) -> Checked {
        for letters in 0..=17 {
            let form = stored_form(&run.maker.random.word(letters));
            for bit in 0..8 * form.len() {
                let mut turned = form.clone();
                turned[bit / 8] ^= 128 >> (bit % 8);
                run.parts(&Restore, vec![turned], None)?;
            }
        }
        Ok(())
    }

    /// More than 10,000 letters. The files have several lengths, and zeros or ones in their rows.
    fn too_many_letters(&self, run: &mut Run) -> Checked {
        for letters in [MOST_LETTERS + 1, MOST_LETTERS + 8, 0xFFFF] {
            let form = sizes(letters, letters.div_ceil(8), (3 * letters).div_ceil(8));
            for (length, filler) in [(5_010, 0), (6, 0), (7, 0xFF), (5_006, 0xFF)] {
                let mut form = form.clone();
                form.resize(length, filler);
                run.parts(&Restore, vec![form], Some(10))?;
            }
        }
        Ok(())
    }

    /// Words of many lengths are stored, and their stored forms are restored. The lengths of the results must be right.
    fn there_and_back(&self, run: &mut Run) -> Checked {
        for letters in (0..=130).chain(9_980..=MOST_LETTERS) {
            let codes = run.maker.random.word(letters);
            let (word, form) = (word_file(&codes), stored_form(&codes));
            let stored = run.parts(&Store, vec![word.clone()], Some(0))?;
            assert_eq!(stored.numbers, [form.len() as i64]);
            let restored = run.parts(&Restore, vec![form], Some(0))?;
            assert_eq!(restored.numbers, [word.len() as i64]);
        }
        Ok(())
    }
}

/// The three sizes of a stored form, as two bytes each. Larger sizes lose their high bits.
fn sizes(letters: usize, signs: usize, generators: usize) -> Vec<u8> {
    [letters, signs, generators].into_iter().flat_map(|size| (size as u16).to_be_bytes()).collect()
}

/// Puts fault 29 into the rows of a stored form: a generator 7, or filler that is not zero. The stored form must have
/// at least one letter.
fn spoil_rows(random: &mut Random, form: &mut [u8], letters: usize) {
    let signs = 8 * 6..8 * 6 + letters;
    let generators = 8 * (6 + letters.div_ceil(8));
    let mut fillers: Vec<usize> = (signs.end..generators).collect();
    fillers.extend(generators + 3 * letters..8 * form.len());
    let mut set = |bit: usize| form[bit / 8] |= 128 >> (bit % 8);
    if fillers.is_empty() || random.one_in(2) {
        let seven = generators + 3 * random.below(letters as u64);
        (seven..seven + 3).for_each(set);
    } else {
        set(random.pick(&fillers));
    }
}

/// A stored form with these faults: 28, 10, 29.
fn spoiled(random: &mut Random, mut codes: Vec<u8>, faults: &[u8]) -> Vec<u8> {
    if codes.is_empty() && faults.contains(&29) {
        codes.push(random.letter());
    }
    let mut form = stored_form(&codes);
    if faults.contains(&29) {
        spoil_rows(random, &mut form, codes.len());
    }
    if faults.contains(&10) {
        let any = random.within(MOST_LETTERS + 1, 0xFFFF) as u16;
        form[..2].copy_from_slice(&random.pick(&[10_001, 0xFFFF, any]).to_be_bytes());
    }
    if faults.contains(&28) {
        match random.below(4) {
            _ if faults.contains(&10) => form.truncate(random.below(6)),
            0 => form.truncate(random.below(6)),
            1 => files::change_length(random, &mut form, 6),
            _ => {
                let place = random.pick(&[2, 4]);
                let size = u16::from_be_bytes([form[place], form[place + 1]]);
                let other = size.wrapping_add(random.pick(&[1, 0xFFFF, 0x100]));
                form[place..place + 2].copy_from_slice(&other.to_be_bytes());
            }
        }
    }
    form
}
