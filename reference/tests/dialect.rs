//! The Y dialect (document 02, section 11). The expected values are worked out by hand from the request's text and from
//! source 000, with the reasoning beside them. The code under test computed none of them.

mod common;

use std::fs;
use std::path::Path;

use common::{file, hex, output, refuses, Random};
use reference::dialect::{converted, inverse, relation, Way, RELATIONS};
use reference::letter::{codes_of, letters_of, Letter};
use reference::pair::carried;
use reference::testkit::compositions;
use reference::{free_reduce, from_y, replace_pair, start, to_y, Field, Pair};

/// Artin words and their Y words, for parts 4 and 3.
const PAIRS: [(&str, &str); 6] = [
    ("00 00", "00 00"),
    // b1 is y1 y2⁻¹
    ("00 01 00", "00 02 09"),
    // b4 ends its part: y4
    ("00 01 30", "00 01 30"),
    // b7⁻¹ ends its part: y7⁻¹
    ("00 01 E0", "00 01 E0"),
    // b2⁻¹ is the inverse of y2 y3⁻¹: y3 y2⁻¹
    ("00 01 90", "00 02 29"),
    // b1 b2 is y1 y2⁻¹ y2 y3⁻¹, which is not freely reduced
    ("00 02 01", "00 04 09 1A"),
];

#[test]
fn artin_to_y() {
    for (artin, y) in PAIRS {
        assert_eq!(output(|out| to_y(&hex(artin), &[4, 3], out)), hex(y), "{artin}");
    }
}

/// Y words and their Artin words, for parts 4 and 3.
#[test]
fn y_to_artin() {
    let pairs = [
        // y1 is b1 b2 b3 b4, and y5 is b5 b6 b7
        ("00 02 04", "00 07 01 23 45 60"),
        // y3⁻¹ is b4⁻¹ b3⁻¹
        ("00 01 A0", "00 02 BA"),
        ("00 01 30", "00 01 30"),
    ];
    for (y, artin) in pairs {
        assert_eq!(output(|out| from_y(&hex(y), &[4, 3], out)), hex(artin), "{y}");
    }
    // seven parts of 1: every generator ends its part
    assert_eq!(output(|out| from_y(&hex("00 03 0A 60"), &[1; 7], out)), hex("00 03 0A 60"));
    // one part of 7: y7⁻¹ is b7⁻¹, and y6 is b6 b7
    assert_eq!(output(|out| from_y(&hex("00 02 E5"), &[7], out)), hex("00 03 E5 60"));
}

#[test]
fn refusals() {
    let none: [&[u8]; 9] = [&[], &[0], &[4, 0, 3], &[7, 0], &[4, 4], &[4, 2], &[255, 8], &[1; 8], &[1; 263]];
    for parts in none {
        refuses(33, 5_002, |out| to_y(&[0, 0], parts, out));
        refuses(33, 5_002, |out| from_y(&[0, 0], parts, out));
    }
    refuses(15, 5_001, |out| to_y(&[], &[], out));
    // the word is checked before the parts, and the parts before the number of new letters
    refuses(9, 5_002, |out| to_y(&[], &[], out));
    refuses(33, 5_002, |out| to_y(&file(&[0; 10_000]), &[], out));
    refuses(34, 5_002, |out| to_y(&file(&[0; 5_001]), &[4, 3], out));
    assert_eq!(output(|out| to_y(&file(&[0; 5_000]), &[4, 3], out)).len(), 5_002);
    refuses(34, 5_002, |out| from_y(&file(&[0; 2_501]), &[4, 3], out));
}

/// A word converted to the other dialect and back is the same word after free reduction. The test starts from both
/// dialects and uses every composition of 7.
#[test]
fn there_and_back() {
    let mut random = Random::seeded(11);
    let all = compositions(7);
    assert_eq!(all.len(), 64);
    for parts in all {
        for letters in [0, 1, 2, 7, 40, 300] {
            let word = file(&random.word(letters));
            let own = output(|out| free_reduce(&word, out));
            let y = output(|out| to_y(&word, &parts, out));
            let round = output(|out| from_y(&y, &parts, out));
            assert_eq!(output(|out| free_reduce(&round, out)), own);
            let artin = output(|out| from_y(&word, &parts, out));
            let round = output(|out| to_y(&artin, &parts, out));
            assert_eq!(output(|out| free_reduce(&round, out)), own);
        }
    }
}

/// Reads a file of the repository.
fn repository(path: &str) -> String {
    let root = Path::new(env!("CARGO_MANIFEST_DIR")).parent().expect("the repository");
    fs::read_to_string(root.join(path)).unwrap_or_else(|error| panic!("{path}: {error}"))
}

/// A row as the source prints it: {4,1}{7,-1} is y4 y7⁻¹.
fn printed(line: &str) -> Vec<Letter> {
    let plain: String = line.chars().filter(|c| !"\\$ ".contains(*c)).collect();
    let letters = plain.trim_start_matches('{').trim_end_matches('}').split("}{");
    letters
        .map(|letter| {
            let (generator, sign) = letter.split_once(',').expect("a generator and a sign");
            Letter { generator: generator.parse().expect("a generator"), inverse: sign == "-1" }
        })
        .collect()
}

/// The rows of the source's Appendix A.
fn source() -> Vec<Vec<Letter>> {
    let text = repository("reference/tests/appendix-a.txt");
    text.lines().filter(|line| !line.starts_with('#')).map(printed).collect()
}

#[test]
fn this_table_is_the_sources() {
    assert_eq!(RELATIONS.map(relation).to_vec(), source());
    // 3 rows of 4 letters, 22 of 5, 21 of 6, 30 of 8 and 3 of 9
    let counts = [4, 5, 6, 8, 9].map(|letters| source().iter().filter(|row| row.len() == letters).count());
    assert_eq!(counts, [3, 22, 21, 30, 3]);
}

/// The library's table and the list in the library's definitions have the rows of the source.
#[test]
fn the_librarys_tables_are_the_sources() {
    let code = repository("crates/word_replacement/src/lib.rt");
    let table = code.split("static RELATIONS: [u8; 790] = [").nth(1).expect("the table").split("];").next();
    let numbers: Vec<u8> =
        table.expect("its end").split(',').filter_map(|number| number.trim().parse().ok()).collect();
    let filled = |row: &Vec<Letter>| {
        let mut codes = codes_of(row);
        codes.resize(10, 15);
        codes
    };
    assert_eq!(numbers, source().iter().flat_map(filled).collect::<Vec<_>>());

    let definitions = repository("crates/braid_relations/specs/Relations.antt");
    let rows: Vec<Vec<Letter>> = definitions
        .lines()
        .filter_map(|line| line.trim().trim_start_matches("∷ ").strip_prefix("(y")?.strip_suffix(" ∷ [])"))
        .map(|row| {
            let letters = format!("y{row}");
            let letter = |text: &str| Letter {
                generator: text.trim_start_matches(['y', '⁻', ' ']).parse().expect("a generator"),
                inverse: text.contains('⁻'),
            };
            letters.split(" ∷ ").map(letter).collect()
        })
        .collect();
    assert_eq!(rows, source());
}

/// Every row, converted to Artin letters, carries every pair to itself over both fields.
#[test]
fn every_row_is_kept() {
    let mut random = Random::seeded(3);
    for row in RELATIONS.map(relation) {
        let artin = codes_of(&converted(Way::FromY, &row, &[4, 3]));
        for field in [Field::Gf32, Field::Gf256] {
            let t_values = random.t_values(field);
            let pair: Pair = random.pair(field);
            assert_eq!(carried(field, &pair, &t_values, &artin), pair);
            assert_eq!(carried(field, &start(), &t_values, &artin), start());
        }
    }
}

#[test]
fn pairs() {
    // y7 y4⁻¹ stands in row 1 between y4 and y7⁻¹, so y4⁻¹ y7 replaces it
    assert_eq!(output(|out| replace_pair(&hex("00 02 6B"), 0, out)), hex("00 02 B6"));
    // y4 y7 stands at the start of row 1, before y4⁻¹ y7⁻¹, so y7 y4 replaces it
    assert_eq!(output(|out| replace_pair(&hex("00 02 36"), 0, out)), hex("00 02 63"));
    // row 26 is the first with y1 y2⁻¹, and y4 y2 y1⁻¹ y4⁻¹ follows there. So y4 y1 y2⁻¹ y4⁻¹ replaces y1 y2⁻¹ inside
    // this word
    assert_eq!(output(|out| replace_pair(&hex("00 04 50 9D"), 1, out)), hex("00 06 53 09 BD"));
    // no row contains y1 y2
    assert_eq!(output(|out| replace_pair(&hex("00 03 01 10"), 0, out)), hex("00 03 01 10"));
    for place in [1, 2, 9_999, usize::MAX] {
        refuses(22, 5_002, |out| replace_pair(&hex("00 02 6B"), place, out));
    }
    refuses(22, 5_002, |out| replace_pair(&hex("00 00"), 0, out));
    refuses(22, 5_002, |out| replace_pair(&hex("00 01 00"), 0, out));
    refuses(9, 5_002, |out| replace_pair(&[], 0, out));
    // four letters replace y1 y2⁻¹, so the word grows by two letters
    refuses(34, 5_002, |out| replace_pair(&file(&[[0, 9]; 5_000].concat()), 0, out));
    assert_eq!(output(|out| replace_pair(&file(&[[0, 9]; 4_999].concat()), 0, out)).len(), 5_002);
}

/// The word after a pair replacement carries a pair to the same pair as the word before it.
#[test]
fn replacement_keeps_what_a_word_carries() {
    let mut random = Random::seeded(5);
    for _ in 0..200 {
        let word = random.word(20);
        let place = random.below(19);
        let new = reference::letters(&output(|out| replace_pair(&file(&word), place, out)));
        let [old, new] =
            [word, new].map(|codes| codes_of(&converted(Way::FromY, &letters_of(&codes), &[4, 3])));
        for field in [Field::Gf32, Field::Gf256] {
            let (t_values, pair) = (random.t_values(field), random.pair(field));
            assert_eq!(carried(field, &pair, &t_values, &new), carried(field, &pair, &t_values, &old));
        }
    }
    assert_eq!(inverse(&letters_of(&[0, 9])), letters_of(&[1, 8]));
}
