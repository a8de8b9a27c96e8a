//! The list of operations. Each operation has its own file.

pub mod cloaks;
pub mod crossings;
pub mod encode_digest;
pub mod file_entries;
pub mod first_half;
pub mod free_reduce;
pub mod from_y;
pub mod handle_reduce;
pub mod multiply;
pub mod product;
pub mod read_key;
pub mod read_word;
pub mod reciprocal;
pub mod replace_pair;
pub mod restore;
pub mod rewrite;
pub mod second_half;
pub mod shelf_clear;
pub mod shelf_judge;
pub mod shelf_load;
pub mod shelf_round;
pub mod shorten;
pub mod shorter;
pub mod start;
pub mod store;
pub mod to_y;
pub mod verify;
pub mod words_ending;
pub mod write_key;
pub mod write_word;

use reference::Field;

use crate::operation::Op;

/// All operations, in the order of `walnut.h`.
pub const ALL: [Op; 30] = [
    &product::Product,
    &reciprocal::Reciprocal,
    &start::Start,
    &multiply::Multiply,
    &read_key::ReadKey,
    &file_entries::FileEntries,
    &write_key::WriteKey,
    &read_word::ReadWord,
    &write_word::WriteWord,
    &encode_digest::EncodeDigest,
    &free_reduce::FreeReduce,
    &store::Store,
    &restore::Restore,
    &to_y::ToY,
    &from_y::FromY,
    &replace_pair::ReplacePair,
    &rewrite::Rewrite,
    &handle_reduce::HandleReduce,
    &shorter::Shorter,
    &shorten::Shorten,
    &verify::Verify,
    &first_half::FirstHalf,
    &second_half::SecondHalf,
    &cloaks::Cloaks,
    &crossings::Crossings,
    &words_ending::WordsEnding,
    &shelf_load::ShelfLoad,
    &shelf_clear::ShelfClear,
    &shelf_judge::ShelfJudge,
    &shelf_round::ShelfRound,
];

/// Each operation with each of its fields.
pub fn over_fields() -> impl Iterator<Item = (Op, Field)> {
    ALL.into_iter()
        .flat_map(|operation| operation.facts().fields().iter().map(move |field| (operation, *field)))
}

#[cfg(test)]
mod tests {
    use super::*;
    use crate::operation::Operation;

    /// The list has every function that the Rust binding declares, in the same order. Exception: the version is no
    /// operation of the papers; the tests of the bindings compare it with the header's.
    #[test]
    fn every_export_is_listed() {
        let declared = include_str!("../../../bindings/rust/src/exported.rs");
        let declared = declared.split("pub fn walnut_").skip(1).map(|text| text.split('(').next());
        let declared = declared.filter(|name| *name != Some("version"));
        let listed = ALL.map(|operation| Some(operation.facts().name));
        assert_eq!(declared.collect::<Vec<_>>(), listed);
    }

    /// The papers have the numbers 0 to 36, and each is an answer of some operation.
    #[test]
    fn every_number_is_given() {
        let given = |number: u8| ALL.iter().any(|operation| operation.facts().questions.contains(&number));
        assert!((1..=36).all(given));
        assert!(![0, 37].into_iter().any(given));
    }

    /// Over the larger field 7 and 17 cannot occur. All other numbers can.
    #[test]
    fn questions_of_the_larger_field() {
        for facts in ALL.map(|operation| operation.facts()) {
            let (small, large) = (facts.questions_over(Field::Gf32), facts.questions_over(Field::Gf256));
            assert_eq!(small, facts.questions);
            let lost: Vec<u8> = small.into_iter().filter(|number| !large.contains(number)).collect();
            assert!(lost.iter().all(|number| [7, 17].contains(number)));
        }
        assert_eq!(product::Product.facts().questions_over(Field::Gf256), []);
        assert_eq!(write_key::WriteKey.facts().questions_over(Field::Gf256), [16, 4, 5, 6, 26]);
    }

    #[test]
    fn first_fault_decides() {
        let (rewrite, cloaks, verify) =
            (rewrite::Rewrite.facts(), cloaks::Cloaks.facts(), verify::Verify.facts());
        assert_eq!([&[9, 15][..], &[24, 18, 13]].map(|faults| rewrite.answer_to(faults)), [15, 13]);
        assert_eq!([[9, 25], [25, 7], [25, 26]].map(|faults| cloaks.answer_to(&faults)), [25, 7, 26]);
        assert_eq!([&[8, 26][..], &[]].map(|faults| verify.answer_to(faults)), [26, 0]);
        assert_eq!(read_key::ReadKey.facts().answer_to(&[26, 7]), 7);
        assert_eq!(write_key::WriteKey.facts().answer_to(&[26, 6]), 6);
        assert_eq!(multiply::Multiply.facts().answer_to(&[12, 4, 17]), 17);
        assert_eq!(crossings::Crossings.facts().answer_to(&[27, 13]), 13);
        assert_eq!(first_half::FirstHalf.facts().answer_to(&[8, 26]), 26);
        let second_half = second_half::SecondHalf.facts();
        let pairs = [[4, 17], [6, 4], [26, 6], [9, 26], [14, 13]];
        assert_eq!(pairs.map(|faults| second_half.answer_to(&faults)), [17, 4, 6, 26, 13]);
        let judge = shelf_judge::ShelfJudge.facts();
        let pairs = [[31, 30], [1, 31], [8, 26], [36, 13], [14, 36]];
        assert_eq!(pairs.map(|faults| judge.answer_to(&faults)), [30, 31, 26, 13, 36]);
        assert_eq!(shelf_load::ShelfLoad.facts().answer_to(&[1, 30]), 30);
    }
}
