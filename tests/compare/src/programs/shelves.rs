//! The program `key_shelf`, on a shelf in a file. A history is a series of calls, and each call gets the file that the
//! call before it left. The answer that the program writes and the shelf that it leaves must be those of the reference.
//! On 14 the file has the slip's letters charged. On any other refusal it must stay unchanged.

use std::ffi::OsStr;
use std::path::Path;
use std::{env, fs, process};

use reference::testkit::Slip;
use reference::word::word_file;
use reference::{Field, Shelf};

use crate::make::{files, Maker, Size};
use crate::programs::{ran, Checked, Counts};

/// The number of histories, and the number of calls in each history.
const HISTORIES: usize = 12;
const CALLS: usize = 30;

/// Arguments for the publisher and for the key number, each with the number that the reference gets. An argument that
/// is not a single digit counts as 10.
const PUBLISHERS: [(&str, usize); 8] =
    [("1", 1), ("1", 1), ("1", 1), ("2", 2), ("2", 2), ("2", 2), ("0", 0), ("31", 10)];
const NUMBERS: [(&str, usize); 8] =
    [("0", 0), ("0", 0), ("0", 0), ("1", 1), ("1", 1), ("3", 3), ("4", 4), ("x", 10)];

/// A random verb, and the files that it gets. One word in three is of random letters, so that 14 occurs.
fn call(maker: &mut Maker, slip: Slip) -> (&'static str, Vec<Vec<u8>>) {
    let random = &mut maker.random;
    let other = word_file(&random.word(20));
    let word = if random.one_in(3) { other } else { slip.word };
    let (verb, mut given) = match random.below(12) {
        0..=4 => ("load", vec![slip.key]),
        5 => ("clear", vec![]),
        6 => ("round", vec![]),
        _ => ("judge", vec![slip.digest, word]),
    };
    if !given.is_empty() && random.one_in(4) {
        let spoiled = random.below(given.len() as u64);
        files::damage(random, &mut given[spoiled], false);
    }
    (verb, given)
}

/// A shelf near the limits of a round: 9,995 and 19,990 letters are charged, so that at most 15 letters are left. Each
/// publisher holds a slip's key under all its numbers.
fn near_the_limits(slips: &[Slip]) -> Shelf {
    let mut bytes = [0; 1036];
    bytes[1032..].copy_from_slice(&[0x27, 0x0B, 0x4E, 0x16]);
    let mut shelf = Shelf::of(&bytes);
    for (publisher, slip) in (1..).zip(slips) {
        (0..=3).for_each(|number| assert_eq!(shelf.load(publisher, number, &slip.key), 0));
    }
    shelf
}

/// Runs one history from a shelf file with the bytes of `begun`. If `begun` is `None`, the history begins with a shelf
/// near the limits of a round, and its words have at least 17 letters.
fn history(
    program: &Path,
    folder: &Path,
    maker: &mut Maker,
    begun: Option<&[u8]>,
    counts: &mut Counts,
) -> Checked {
    let put = |name: &str, bytes: &[u8]| {
        let path = folder.join(name);
        fs::write(&path, bytes)
            .map(|()| path.clone())
            .map_err(|error| format!("{}: {error}\n", path.display()))
    };
    let slips: Vec<Slip> = Field::BOTH
        .map(|field| {
            let codes = maker.codes(if begun.is_some() { Size::Short } else { Size::Middle });
            maker.slip(field, &codes)
        })
        .to_vec();
    let mut shelf = begun.map_or_else(|| near_the_limits(&slips), |_| Shelf::empty());
    let mut bytes = begun.map_or_else(|| shelf.bytes(), <[u8]>::to_vec);
    let (file, beside) = (put("the shelf", &bytes)?, folder.join(".beside"));
    for _ in 0..CALLS {
        let slip = slips[maker.random.below(2)].clone();
        let (verb, given) = call(maker, slip);
        let ((written, publisher), (text, number)) =
            (maker.random.pick(&PUBLISHERS), maker.random.pick(&NUMBERS));
        let mut arguments: Vec<&OsStr> = vec![verb.as_ref(), beside.as_ref(), file.as_ref(), file.as_ref()];
        arguments.extend([written, text].map(OsStr::new));
        if verb == "round" {
            arguments.pop();
        }
        let mut paths = Vec::new();
        for (name, part) in ["-first", "second file"].iter().zip(&given) {
            paths.push(put(name, part)?);
        }
        arguments.extend(paths.iter().map(|path| path.as_os_str()));
        let output = ran(program, &arguments, &[])?;
        let answer = match verb {
            "load" => shelf.load(publisher, number, &given[0]),
            "clear" => shelf.clear(publisher, number),
            "round" => shelf.round(publisher),
            _ => shelf.judge(publisher, number, &given[0], &given[1]),
        };
        // on a refusal other than 14 the file stays as it is, even a file without bytes
        if answer == 0 || answer == 14 {
            bytes = shelf.bytes();
        }
        let found = String::from_utf8_lossy(&output.stdout);
        let left = fs::read(&file).map_err(|error| format!("{}: {error}\n", file.display()))?;
        if found != format!("answer {answer}\n") || left != bytes || beside.exists() {
            return Err(format!(
                "key_shelf {verb} {written} {text}: wrote {found:?}, expected answer {answer}, or left a wrong file\n"
            ));
        }
        counts.count(answer);
    }
    Ok(())
}

/// Runs the histories. The first begins with an empty file, the others with 1,036 zeros or near the limits of a round.
/// Returns the number of calls, by answer.
pub fn check(programs: &Path, maker: &mut Maker) -> Checked<String> {
    let folder = env::temp_dir().join(format!("walnut shelves {}", process::id()));
    fs::create_dir_all(&folder).map_err(|error| format!("{}: {error}\n", folder.display()))?;
    let mut counts = Counts::default();
    let zeros = [0; 1036];
    let all = (0..HISTORIES).try_for_each(|place| {
        let begun = match place {
            0 => Some(&[][..]),
            _ if place % 3 == 0 => None,
            _ => Some(&zeros[..]),
        };
        history(&programs.join("key_shelf"), &folder, maker, begun, &mut counts)
    });
    // If the temporary folder cannot be removed, it does no harm.
    let _ = fs::remove_dir_all(&folder);
    all?;
    counts.summary("key_shelf", &[0, 1, 8, 14, 30, 31, 36])
}
