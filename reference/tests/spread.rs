//! How words spread over lists: document 02's number, small lengths by hand, both ways to count, the sum over all
//! lists, and refusals.

use reference::spread::{by_a_power, by_every_word, lists};
use reference::{words_ending, Count};

/// 12 words of length 2 end in the list 0, 1, 2, 3.
#[test]
fn the_paper_s_number() {
    assert_eq!(words_ending(2, &[0, 1, 2, 3]), Count { answer: 0, words: 12 });
}

/// A word without letters keeps the list, and every letter changes it. Of the words of two letters, 12 have one
/// generator twice and keep the list. 8 have b1 and b3, in either order and with any signs. For each other order of two
/// generators there are 4, one for each choice of signs.
#[test]
fn lengths_by_hand() {
    let one = [([0, 1, 3, 2], 2), ([0, 2, 1, 3], 2), ([1, 0, 2, 3], 2)];
    let two = [
        ([0, 1, 2, 3], 12),
        ([1, 0, 3, 2], 8),
        ([1, 2, 0, 3], 4),
        ([2, 0, 1, 3], 4),
        ([0, 2, 3, 1], 4),
        ([0, 3, 1, 2], 4),
    ];
    for (length, reached) in [(0, &[([0, 1, 2, 3], 1)][..]), (1, &one), (2, &two)] {
        for list in lists() {
            let words = reached.iter().find(|(other, _)| *other == list).map_or(0, |(_, number)| *number);
            assert_eq!(words_ending(length, &list), Count { answer: 0, words });
        }
    }
}

#[test]
fn both_ways_agree() {
    for length in 0..=8 {
        assert_eq!(by_every_word(length), by_a_power(length));
    }
}

#[test]
fn all_together() {
    assert_eq!(lists().len(), 24);
    for length in 0..=12 {
        let total: u64 = lists().iter().map(|list| u64::from(words_ending(length, list).words)).sum();
        assert_eq!(total, 6_u64.pow(length as u32));
    }
}

#[test]
fn refusals() {
    let refused = Count { answer: 35, words: 0 };
    for length in [13, 255, 65_536, usize::MAX] {
        assert_eq!(words_ending(length, &[0, 1, 2, 3]), refused);
    }
    for labels in [&[][..], &[0], &[0, 1, 2], &[0, 1, 2, 2], &[0, 1, 2, 4], &[1, 2, 3, 4], &[0, 1, 2, 3, 4]] {
        assert_eq!(words_ending(2, labels), refused);
    }
}
