//! The program `new_word`, on files, with its verbs shorten, rewrite, reduce, handles, store, restore, to-y and from-y.
//! The lines that it writes and the new file must be those of the reference. On a refusal the file at the new word's
//! path must stay unchanged.

use std::ffi::OsStr;
use std::path::{Path, PathBuf};
use std::time::SystemTime;
use std::{env, fs, process};

use reference::stored::{stored_letters, MOST_STORED};
use reference::word::letters;
use reference::{
    free_reduce, from_y, handle_reduce, restore, rewrite, shorten, store, to_y, verify, Field, Handles,
    Written,
};

use crate::make::{files, Maker, Size};
use crate::operation::Op;
use crate::operations::free_reduce::FreeReduce;
use crate::operations::from_y::FromY;
use crate::operations::handle_reduce::HandleReduce;
use crate::operations::restore::Restore;
use crate::operations::rewrite::Rewrite;
use crate::operations::store::Store;
use crate::operations::to_y::ToY;
use crate::operations::verify::Verify;
use crate::programs::{ran, Checked, Counts};
use crate::show;

/// The numbers of inputs with each fault, without faults, and damaged.
const WITH_FAULT: usize = 4;
const WITHOUT: usize = 30;
const DAMAGED: usize = 40;

/// The content of the new word's file before a run.
const BEFORE: &[u8] = b"what was there";

/// A verb of the program, and what the reference does for it.
struct Verb {
    name: &'static str,
    /// The arguments before the files. They are numbers.
    numbers: &'static [&'static str],
    /// The operation whose inputs the verb takes.
    operation: Op,
    fields: &'static [Field],
    /// The place of the part that is the word or its stored form.
    word: usize,
    /// The number of parts that are files. A part after them is passed as text, which `argument` makes.
    files: usize,
    argument: fn(&[u8]) -> String,
    /// The number of letters in the file that is read, and in the new file.
    letters: [fn(&[u8]) -> usize; 2],
    made: fn(&[Vec<u8>], &mut [u8]) -> Written,
    /// The end of the line of sizes.
    more: fn(&[Vec<u8>]) -> &'static str,
}

/// The number of letters in a word file, and in a stored form.
fn of_word(file: &[u8]) -> usize {
    letters(file).len()
}

fn of_stored(file: &[u8]) -> usize {
    stored_letters(file).len()
}

const WORDS: [fn(&[u8]) -> usize; 2] = [of_word, of_word];

const VERBS: [Verb; 8] = [
    Verb {
        name: "shorten",
        numbers: &["5"],
        operation: &Verify,
        fields: &Field::BOTH,
        word: 2,
        files: 3,
        argument: no_argument,
        letters: WORDS,
        made: shortened,
        more: |_| "",
    },
    Verb {
        name: "rewrite",
        numbers: &[],
        operation: &Rewrite,
        fields: &[Field::Gf32],
        word: 0,
        files: 2,
        argument: no_argument,
        letters: WORDS,
        made: |parts, out| rewrite(&parts[0], &parts[1], out),
        more: |_| "",
    },
    Verb {
        name: "reduce",
        numbers: &[],
        operation: &FreeReduce,
        fields: &[Field::Gf32],
        word: 0,
        files: 1,
        argument: no_argument,
        letters: WORDS,
        made: |parts, out| free_reduce(&parts[0], out),
        more: |_| "",
    },
    Verb {
        name: "handles",
        numbers: &[],
        operation: &HandleReduce,
        fields: &[Field::Gf32],
        word: 0,
        files: 1,
        argument: |part| number(part).to_string(),
        letters: WORDS,
        made: |parts, out| {
            let Handles { answer, bytes, .. } = handles(parts, out);
            Written { answer, bytes }
        },
        more: |parts| match handles(parts, &mut [0; MOST_STORED]).left {
            true => ", handles left: yes",
            false => ", handles left: no",
        },
    },
    Verb {
        name: "store",
        numbers: &[],
        operation: &Store,
        fields: &[Field::Gf32],
        word: 0,
        files: 1,
        argument: no_argument,
        letters: [of_word, of_stored],
        made: |parts, out| store(&parts[0], out),
        more: |_| "",
    },
    Verb {
        name: "restore",
        numbers: &[],
        operation: &Restore,
        fields: &[Field::Gf32],
        word: 0,
        files: 1,
        argument: no_argument,
        letters: [of_stored, of_word],
        made: |parts, out| restore(&parts[0], out),
        more: |_| "",
    },
    Verb {
        name: "to-y",
        numbers: &[],
        operation: &ToY,
        fields: &[Field::Gf32],
        word: 0,
        files: 1,
        argument: with_commas,
        letters: WORDS,
        made: |parts, out| to_y(&parts[0], &parts[1], out),
        more: |_| "",
    },
    Verb {
        name: "from-y",
        numbers: &[],
        operation: &FromY,
        fields: &[Field::Gf32],
        word: 0,
        files: 1,
        argument: with_commas,
        letters: WORDS,
        made: |parts, out| from_y(&parts[0], &parts[1], out),
        more: |_| "",
    },
];

/// For verbs that pass no part as text.
fn no_argument(_: &[u8]) -> String {
    String::new()
}

/// The bytes of a part as numbers, with commas between them.
fn with_commas(part: &[u8]) -> String {
    part.iter().map(u8::to_string).collect::<Vec<_>>().join(",")
}

/// The number in a part of two bytes.
fn number(part: &[u8]) -> u16 {
    u16::from_be_bytes(part.try_into().expect("two bytes"))
}

/// Takes handles out of the word in the first part. The second part is the limit of steps.
fn handles(parts: &[Vec<u8>], out: &mut [u8]) -> Handles {
    handle_reduce(&parts[0], number(&parts[1]), out)
}

/// The word of a slip, shortened with effort 5. The slip must be accepted with the old word and with the new one.
/// Otherwise the result is the refusal of the verdict.
fn shortened(parts: &[Vec<u8>], out: &mut [u8]) -> Written {
    match verify(&parts[0], &parts[1], &parts[2]) {
        0 => {
            let written = shorten(&parts[2], 5, out);
            match verify(&parts[0], &parts[1], &out[..written.bytes]) {
                0 => written,
                answer => Written::refusal(answer),
            }
        }
        answer => Written::refusal(answer),
    }
}

/// The program, and the folder of its files.
struct Place {
    program: PathBuf,
    folder: PathBuf,
}

impl Drop for Place {
    fn drop(&mut self) {
        // If the temporary folder cannot be removed, it does no harm.
        let _ = fs::remove_dir_all(&self.folder);
    }
}

impl Place {
    fn put(&self, name: &str, bytes: &[u8]) -> Checked<PathBuf> {
        let path = self.folder.join(name);
        fs::write(&path, bytes).map_err(|error| format!("{}: {error}\n", path.display()))?;
        Ok(path)
    }

    /// Runs the program with a verb on these parts, compares the result with the reference, and counts the answer.
    fn compare(&self, verb: &Verb, counts: &mut Counts, parts: &[Vec<u8>]) -> Checked {
        let beside = self.folder.join(".beside");
        let mut paths = Vec::new();
        for (name, part) in ["first file", "-second", "third"].iter().zip(&parts[..verb.files]) {
            paths.push(self.put(name, part)?);
        }
        paths.extend(parts[verb.files..].iter().map(|part| (verb.argument)(part).into()));
        let new = self.put("the new word", BEFORE)?;
        let before = changed(&new)?;
        paths.push(new.clone());
        let mut arguments: Vec<&OsStr> = vec![verb.name.as_ref(), beside.as_os_str()];
        arguments.extend(verb.numbers.iter().map(OsStr::new));
        arguments.extend(paths.iter().map(|path| path.as_os_str()));
        let output = ran(&self.program, &arguments, &[])?;

        let mut out = vec![0; MOST_STORED];
        let written = (verb.made)(parts, &mut out);
        let expected = lines(verb, &written, parts, &out[..written.bytes]);
        let found = String::from_utf8_lossy(&output.stdout);
        let file = fs::read(&new).map_err(|error| format!("{}: {error}\n", new.display()))?;
        let untouched = file == BEFORE && changed(&new)? == before;
        let well = if written.answer == 0 { file == out[..written.bytes] } else { untouched };
        if found != expected || !output.stderr.is_empty() || !well || beside.exists() {
            let (name, file) = (verb.name, show::hex(&file));
            let parts: String =
                parts.iter().map(|part| format!("  [{}]: {}\n", part.len(), show::hex(part))).collect();
            return Err(format!(
                "{name}: wrote {found:?}, expected {expected:?}, or left a wrong file, on\n{parts}  {file}\n"
            ));
        }
        counts.count(written.answer);
        Ok(())
    }
}

/// The time of a file's last change.
fn changed(path: &Path) -> Checked<SystemTime> {
    let time = fs::metadata(path).and_then(|data| data.modified());
    time.map_err(|error| format!("{}: {error}\n", path.display()))
}

/// The lines that the program must write.
fn lines(verb: &Verb, written: &Written, parts: &[Vec<u8>], new: &[u8]) -> String {
    match written.answer {
        0 => {
            let (old, more) = (&parts[verb.word], (verb.more)(parts));
            let [from, to] = [verb.letters[0](old), verb.letters[1](new)];
            format!("answer 0\nletters {from} to {to}, bytes {} to {}{more}\n", old.len(), new.len())
        }
        answer => format!("answer {answer}\n"),
    }
}

/// Compares a verb over a field on inputs without faults, with each fault, damaged, and longer than any valid file.
fn all(place: &Place, verb: &Verb, field: Field, maker: &mut Maker) -> Checked<String> {
    let counts = &mut Counts::default();
    let asked = verb.operation.facts().questions_over(field);
    let questions: Vec<u8> = asked.into_iter().filter(|number| *number != 15).collect();
    let mut plan: Vec<(Vec<u8>, Size)> = vec![(vec![], Size::Long); 3];
    plan.extend((0..WITHOUT).map(|turn| (vec![], if turn % 2 == 0 { Size::Short } else { Size::Middle })));
    plan.extend(questions.iter().flat_map(|number| vec![(vec![*number], Size::Short); WITH_FAULT]));
    for (faults, size) in plan {
        let case =
            maker.with_faults(verb.operation, field, &faults, size).expect("one fault can stand alone");
        place.compare(verb, counts, &case.0.parts)?;
    }
    for turn in 0..DAMAGED {
        let case = maker.with_faults(verb.operation, field, &[], Size::Short).expect("none can stand");
        let mut parts = case.0.parts;
        let at = turn % verb.files;
        files::damage(&mut maker.random, &mut parts[at], false);
        place.compare(verb, counts, &parts)?;
        parts[at].extend(vec![0; 70_000]);
        place.compare(verb, counts, &parts)?;
    }
    let answers: Vec<u8> = [0].into_iter().chain(questions).collect();
    let over = if verb.fields.len() > 1 { format!(" ({})", field.size()) } else { String::new() };
    counts.summary(&format!("{}{over}", verb.name), &answers)
}

/// Runs the eight verbs. Returns a line for each verb, and for `shorten` a line for each field.
pub fn check(programs: &Path, maker: &mut Maker) -> Checked<Vec<String>> {
    let folder = env::temp_dir().join(format!("walnut words {}", process::id()));
    fs::create_dir_all(&folder).map_err(|error| format!("{}: {error}\n", folder.display()))?;
    let place = Place { program: programs.join("new_word"), folder };
    let over = VERBS.iter().flat_map(|verb| verb.fields.iter().map(move |field| (verb, *field)));
    over.map(|(verb, field)| all(&place, verb, field, maker)).collect()
}
