//! The program `desk`, in its three forms: a slip on standard input, a slip in three files, and several copies of a
//! slip in files; and the program `slips`, on the same files. Each line must have the reference's answer.

use std::ffi::OsStr;
use std::fs;
use std::path::{Path, PathBuf};
use std::process::Output;
use std::{env, process};

use reference::letter::codes_of;
use reference::testkit::{Random, Slip};
use reference::word::{word_file, MOST_LETTERS};
use reference::{desk, verify, Field};

use crate::case::field_of_key;
use crate::fixed::{keys, sevens};
use crate::make::{files, Maker, Size};
use crate::operation::Operation;
use crate::operations::verify::Verify;
use crate::programs::{ran, Checked, Counts};
use crate::show;

/// The number of slips for each fault, for each two faults, and for each fault of key or digest with several copies.
const VARIANTS: usize = 5;

/// The number of accepted slips over each field of which several copies are judged.
const COPIED: usize = 60;

/// The line for an answer, or for a file that cannot be read.
fn line(answer: Option<u8>) -> String {
    answer.map_or("no answer\n".to_string(), |answer| format!("answer {answer}\n"))
}

/// Checks that the output has exactly the lines of these answers. Standard error must be empty if all files can be
/// read, and not empty otherwise.
fn held(name: &str, input: &[&[u8]], output: &Output, answers: &[Option<u8>]) -> Checked {
    let lines: String = answers.iter().copied().map(line).collect();
    if output.stdout == lines.as_bytes() && output.stderr.is_empty() != answers.contains(&None) {
        return Ok(());
    }
    let parts = input.iter().map(|part| format!("  [{}]: {}\n", part.len(), show::hex(part)));
    let found = String::from_utf8_lossy(&output.stdout);
    Err(format!("{name}: wrote {found:?}, expected {lines:?}, on\n{}", parts.collect::<String>()))
}

/// The word file of a copy: the word unchanged, rewritten, damaged, with a fault, or too long. It can also have another
/// word.
fn copy(random: &mut Random, codes: &[u8]) -> Vec<u8> {
    let mut file = word_file(codes);
    match random.below(7) {
        0 => {}
        1 => {
            let moves = random.within(1, 40);
            file = word_file(&codes_of(&random.walk(codes, moves).word));
        }
        2 => files::damage(random, &mut file, false),
        3 => {
            let fault = random.within(9, 13) as u8;
            file = files::word(random, codes, &[fault]);
        }
        4 => file.resize(random.pick(&[file.len() + 1, 5_002, 5_003, 70_000]), 0),
        5 => file = word_file(&vec![0; MOST_LETTERS + 1]),
        _ => file = word_file(&random.tangled_word(codes.len() + 1)),
    }
    file
}

/// The folder of the programs, the folder of their input files, and the numbers of compared cases.
struct Desk<'a> {
    programs: &'a Path,
    folder: PathBuf,
    by_input: BySize,
    by_files: BySize,
    by_copies: BySize,
    copies_left_out: usize,
    without_answer: usize,
}

/// The numbers of cases, by the field of the key and by answer.
#[derive(Default)]
struct BySize([Counts; 2]);

impl BySize {
    fn count(&mut self, field: Field, answer: u8) {
        self.0[usize::from(field == Field::Gf256)].count(answer);
    }

    /// A line for each field. It is a failure if one of the verdict's possible answers did not occur over a field.
    fn summaries(&self, name: &str) -> Checked<Vec<String>> {
        let summary = |(field, counts): (Field, &Counts)| {
            let answers = [vec![0], Verify.facts().questions_over(field)].concat();
            counts.summary(&format!("{name} ({})", field.size()), &answers)
        };
        Field::BOTH.into_iter().zip(&self.0).map(summary).collect()
    }
}

impl Drop for Desk<'_> {
    fn drop(&mut self) {
        // If the temporary folder cannot be removed, it does no harm.
        let _ = fs::remove_dir_all(&self.folder);
    }
}

impl Desk<'_> {
    /// The path of a part's file.
    fn file(&self, name: &str) -> PathBuf {
        self.folder.join(name)
    }

    /// Writes a part's file with these bytes, and returns its path.
    fn written(&self, name: &str, part: &[u8]) -> Checked<PathBuf> {
        let path = self.file(name);
        fs::write(&path, part).map_err(|error| format!("{}: {error}\n", path.display()))?;
        Ok(path)
    }

    /// Compares the slip on standard input, which arrives in these pieces.
    fn on_input(&mut self, pieces: &[&[u8]]) -> Checked {
        let input = pieces.concat();
        let answer = desk::answer(&input);
        let output = ran(&self.programs.join("desk"), &[], pieces)?;
        held("desk", &[&input], &output, &[Some(answer)])?;
        self.by_input.count(desk::field_told(&input), answer);
        Ok(())
    }

    /// Compares the slip in three files, by both programs.
    fn on_files(&mut self, slip: &Slip) -> Checked {
        let parts = [&slip.key, &slip.digest, &slip.word].map(Vec::as_slice);
        let named = ["the key", "the digest", "the signature"].into_iter().zip(parts);
        let paths = named.map(|(name, part)| self.written(name, part)).collect::<Checked<Vec<_>>>()?;
        let answer = verify(parts[0], parts[1], parts[2]);
        for program in ["desk", "slips"] {
            let output = self.on_paths(program, &paths)?;
            held(&format!("{program} on three files"), &parts, &output, &[Some(answer)])?;
        }
        self.by_files.count(field_of_key(parts[0]), answer);
        Ok(())
    }

    /// Compares several copies of a slip in files. For `slips` each copy is a slip. `None` stands for a copy whose file
    /// does not exist. The programs must write a line for each copy, in order.
    fn on_copies(&mut self, key: &[u8], digest: &[u8], words: &[Option<Vec<u8>>]) -> Checked {
        let mut paths = vec![self.written("the key", key)?, self.written("the digest", digest)?];
        for (place, word) in words.iter().enumerate() {
            paths.push(match word {
                Some(word) => self.written(&format!("copy {place}"), word)?,
                None => self.file("not there"),
            });
        }
        let judged = |word: &Option<Vec<u8>>| word.as_ref().map(|word| verify(key, digest, word));
        let answers: Vec<Option<u8>> = words.iter().map(judged).collect();
        let output = self.on_paths("desk", &paths)?;
        let parts: Vec<&[u8]> =
            [key, digest].into_iter().chain(words.iter().flatten().map(Vec::as_slice)).collect();
        held("desk on copies", &parts, &output, &answers)?;
        let slips: Vec<PathBuf> =
            paths[2..].iter().flat_map(|copy| [paths[0].clone(), paths[1].clone(), copy.clone()]).collect();
        held("slips", &parts, &self.on_paths("slips", &slips)?, &answers)?;
        for answer in answers {
            match answer {
                Some(answer) => self.by_copies.count(field_of_key(key), answer),
                None => self.copies_left_out += 1,
            }
        }
        Ok(())
    }

    fn on_paths(&self, program: &str, paths: &[PathBuf]) -> Checked<Output> {
        let arguments: Vec<&OsStr> = paths.iter().map(|path| path.as_os_str()).collect();
        ran(&self.programs.join(program), &arguments, &[])
    }

    /// Compares the slip on standard input and in three files.
    fn both(&mut self, slip: &Slip) -> Checked {
        self.on_input(&[&[slip.key.as_slice(), &slip.digest, &slip.word].concat()])?;
        self.on_files(slip)
    }

    /// Checks the program on files that cannot all be read, or on fewer than three files. It must write nothing to
    /// standard output, and an account to standard error.
    fn unanswered(&mut self, paths: &[PathBuf]) -> Checked {
        let output = self.on_paths("desk", paths)?;
        if !output.stdout.is_empty() || output.stderr.is_empty() {
            let found = String::from_utf8_lossy(&output.stdout);
            return Err(format!(
                "desk on {paths:?}, where a file is missing or unreadable: wrote {found:?}, or no account\n"
            ));
        }
        self.without_answer += 1;
        Ok(())
    }

    /// Replaces one or more of the three files by a file that does not exist, or by a folder. Then gives the program
    /// fewer than three names.
    fn missing(&mut self) -> Checked {
        let there = ["the key", "the digest", "the signature"].map(|name| self.file(name));
        for left_out in 1..8 {
            for other in [self.file("not there"), self.folder.clone()] {
                let path = |place: usize| if left_out >> place & 1 == 1 { &other } else { &there[place] };
                self.unanswered(&[0, 1, 2].map(|place| path(place).clone()))?;
            }
        }
        for given in 1..3 {
            self.unanswered(&there[..given])?;
        }
        self.without_key_or_digest(&there)
    }

    /// Copies of a slip whose key file, digest file, or both do not exist.
    fn without_key_or_digest(&mut self, there: &[PathBuf; 3]) -> Checked {
        let [key, digest, signature] = there;
        let other = &self.file("not there");
        for (key, digest) in [(other, digest), (key, other), (other, other)] {
            for copies in 2..4 {
                let mut paths = vec![key.clone(), digest.clone()];
                paths.resize(2 + copies, signature.clone());
                self.unanswered(&paths)?;
            }
        }
        Ok(())
    }

    /// Document 01's slips, and the corresponding slips over the larger field. The reference must give the answers that
    /// are stated here.
    fn of_the_paper(&mut self) -> Checked {
        let small = |word| Slip { key: keys::plain(Field::Gf32), digest: vec![0; 32], word };
        let large = |word| Slip { key: keys::plain(Field::Gf256), digest: vec![0; 64], word };
        let empty = Slip { key: vec![], digest: vec![], word: vec![] };
        for (slip, stated) in [
            (small(sevens(128)), 0),
            (small(vec![0, 0]), 14),
            (large(sevens(256)), 0),
            (large(sevens(128)), 14),
            (large(vec![0, 0]), 14),
            (empty, 1),
        ] {
            let answer = verify(&slip.key, &slip.digest, &slip.word);
            if answer != stated {
                return Err(format!("the reference gives a slip answer {answer} instead of {stated}\n"));
            }
            self.both(&slip)?;
        }
        Ok(())
    }

    /// Combines the keys and digests of slips over both fields, and keys with another q. In files, each part is judged
    /// by its own bytes. On standard input, bytes 1 and 2, counted from 0, decide where the parts are cut.
    fn mixed(&mut self, maker: &mut Maker) -> Checked {
        let codes = maker.random.tangled_word(6);
        let slips = Field::BOTH.map(|field| maker.slip(field, &codes));
        let mut keys: Vec<Vec<u8>> = slips.iter().map(|slip| slip.key.clone()).collect();
        for (key, q) in
            slips.iter().flat_map(|slip| [[0, 32], [1, 0], [1, 32], [0, 0]].map(|q| (&slip.key, q)))
        {
            keys.push([&key[..1], &q, &key[3..]].concat());
        }
        for key in &keys {
            for digest in slips.iter().map(|slip| &slip.digest) {
                let (key, digest, word) = (key.clone(), digest.clone(), slips[0].word.clone());
                self.both(&Slip { key, digest, word })?;
            }
        }
        Ok(())
    }

    /// Cuts an accepted slip: on standard input at every length, and each file by itself at every length.
    fn cut(&mut self, slip: &Slip) -> Checked {
        let whole = [slip.key.as_slice(), &slip.digest, &slip.word].concat();
        for length in 0..whole.len() {
            self.on_input(&[&whole[..length]])?;
        }
        for length in 0..=slip.key.len() {
            self.on_files(&Slip { key: slip.key[..length].to_vec(), ..slip.clone() })?;
        }
        for length in 0..=slip.digest.len() {
            self.on_files(&Slip { digest: slip.digest[..length].to_vec(), ..slip.clone() })?;
        }
        for length in 0..=slip.word.len() {
            self.on_files(&Slip { word: slip.word[..length].to_vec(), ..slip.clone() })?;
        }
        Ok(())
    }

    /// Adds bytes after the signature in both forms. In the form with three files, also adds bytes after the key and
    /// after the digest.
    fn lengthened(&mut self, slip: &Slip) -> Checked {
        for more in [1, 2, 3, 83, 5_000, 70_000] {
            let longer = |part: &[u8]| [part, &vec![0; more]].concat();
            self.both(&Slip { word: longer(&slip.word), ..slip.clone() })?;
            self.on_files(&Slip { key: longer(&slip.key), ..slip.clone() })?;
            self.on_files(&Slip { digest: longer(&slip.digest), ..slip.clone() })?;
        }
        Ok(())
    }

    /// Sends the slip in pieces. The program must wait for the bytes that have not arrived.
    fn in_pieces(&mut self, slip: &Slip) -> Checked {
        self.on_input(&[&slip.key, &slip.digest, &slip.word])?;
        self.on_input(&[&slip.key[..1], &slip.key[1..], &slip.digest, &slip.word])?;
        let whole = [slip.key.as_slice(), &slip.digest, &slip.word].concat();
        let (key, digest) = (slip.key.len(), slip.key.len() + slip.digest.len());
        let edges = [1, 2, 3, 83, key - 1, key, key + 1, digest - 1, digest, digest + 1, digest + 2];
        for at in edges.into_iter().chain([whole.len() - 1]) {
            self.on_input(&[&whole[..at], &whole[at..]])?;
        }
        Ok(())
    }

    /// Accepted slips over a field: short slips as they are, cut, lengthened and in pieces, and slips with the longest
    /// words. The last slip has a word of 10,001 letters.
    fn accepted(&mut self, maker: &mut Maker, field: Field) -> Checked {
        for letters in [0, 1, 6, 13] {
            let codes = maker.random.tangled_word(letters);
            let slip = maker.slip(field, &codes);
            self.both(&slip)?;
            self.cut(&slip)?;
            self.lengthened(&slip)?;
            self.in_pieces(&slip)?;
        }
        for letters in [9_999, 10_000] {
            let codes = maker.random.tangled_word(letters);
            let slip = maker.slip(field, &codes);
            self.both(&slip)?;
            self.in_pieces(&slip)?;
            self.both(&Slip { word: slip.word[..slip.word.len() - 1].to_vec(), ..slip.clone() })?;
            self.both(&Slip { word: [slip.word.as_slice(), &[0]].concat(), ..slip.clone() })?;
            self.both(&Slip { word: [slip.word.as_slice(), &[0, 0]].concat(), ..slip.clone() })?;
        }
        self.both(&Slip { word: word_file(&[0; 10_001]), ..maker.slip(field, &[]) })
    }

    /// Slips with each fault, with each two faults, without faults, and damaged.
    fn faulty(&mut self, maker: &mut Maker, field: Field) -> Checked {
        let questions = Verify.facts().questions_over(field);
        for (place, first) in questions.iter().enumerate() {
            for second in &questions[place..] {
                for _ in 0..VARIANTS {
                    let mut faults = vec![*first, *second];
                    faults.dedup();
                    self.made(maker, field, &faults, false)?;
                }
            }
        }
        for place in 0..200 {
            self.made(maker, field, &[], place % 2 == 1)?;
        }
        Ok(())
    }

    /// Slips of which several copies are judged: slips with a fault of key or digest, and accepted slips.
    fn copied(&mut self, maker: &mut Maker, field: Field) -> Checked {
        let of_the_slip = |fault: &u8| matches!(fault, 1..=8 | 26);
        let questions = Verify.facts().questions_over(field);
        for fault in questions.into_iter().filter(of_the_slip) {
            for place in 0..VARIANTS {
                self.copies_of(maker, field, &[fault], place % 2 == 1)?;
            }
        }
        for place in 0..COPIED {
            self.copies_of(maker, field, &[], place % 2 == 1)?;
        }
        Ok(())
    }

    /// Compares 2 to 20 copies of a slip with these faults of key or digest. If `left_out` is true, the file of one
    /// copy does not exist.
    fn copies_of(&mut self, maker: &mut Maker, field: Field, faults: &[u8], left_out: bool) -> Checked {
        let codes = maker.codes(Size::Short);
        let slip = maker.slip(field, &codes);
        let random = &mut maker.random;
        let key = files::key(random, field, &slip.key, faults);
        let digest = files::digest(random, field, &slip.digest, faults);
        let number = random.within(2, 20);
        let mut words: Vec<Option<Vec<u8>>> = (0..number).map(|_| Some(copy(random, &codes))).collect();
        if left_out {
            words[random.below(number as u64)] = None;
        }
        self.on_copies(&key, &digest, &words)
    }

    /// Compares a slip with these faults. If `damaged` is true, one part is also damaged.
    fn made(&mut self, maker: &mut Maker, field: Field, faults: &[u8], damaged: bool) -> Checked {
        let case = maker.with_faults(&Verify, field, faults, Size::Short);
        let case = case.expect("these faults stand together");
        let mut parts = case.0.parts;
        if damaged {
            let place = maker.random.below(3);
            files::damage(&mut maker.random, &mut parts[place], false);
        }
        let [key, digest, word] = <[Vec<u8>; 3]>::try_from(parts).expect("three parts");
        self.both(&Slip { key, digest, word })
    }
}

/// Runs all three forms over both fields. Returns a line for each form and field, and two lines about files that cannot
/// be read.
pub fn check(programs: &Path, maker: &mut Maker) -> Checked<Vec<String>> {
    let folder = env::temp_dir().join(format!("walnut slips {}", process::id()));
    fs::create_dir_all(&folder).map_err(|error| format!("{}: {error}\n", folder.display()))?;
    let mut desk = Desk {
        programs,
        folder,
        by_input: BySize::default(),
        by_files: BySize::default(),
        by_copies: BySize::default(),
        copies_left_out: 0,
        without_answer: 0,
    };
    desk.of_the_paper()?;
    desk.missing()?;
    desk.mixed(maker)?;
    for field in Field::BOTH {
        desk.accepted(maker, field)?;
        desk.faulty(maker, field)?;
        desk.copied(maker, field)?;
    }
    let mut lines = [
        desk.by_input.summaries("desk")?,
        desk.by_files.summaries("desk on three files")?,
        desk.by_copies.summaries("desk on copies")?,
    ]
    .concat();
    lines
        .push(format!("desk on copies: \"no answer\", as the copy cannot be read: {}", desk.copies_left_out));
    lines.push(format!("desk on files: no line, as a file cannot be read: {}", desk.without_answer));
    Ok(lines)
}
