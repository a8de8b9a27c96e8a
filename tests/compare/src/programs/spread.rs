//! The program `spread`, without an argument and with one. It must write a line for each list, with the number that the
//! reference finds. If the argument is no length from 0 to 12, it must write the line of answer 35.

use std::ffi::OsStr;
use std::os::unix::ffi::OsStrExt;
use std::path::Path;

use reference::spread::lists;
use reference::words_ending;

use crate::programs::{ran, Checked, Counts};

/// The output that the program must write for a length. `None` stands for an argument that is no length.
fn expected(length: Option<usize>) -> String {
    let line = |list: &[u8; 4], length| {
        let [a, b, c, d] = list;
        format!("{a} {b} {c} {d} {}\n", words_ending(length, list).words)
    };
    match length.filter(|length| *length <= 12) {
        Some(length) => lists().iter().map(|list| line(list, length)).collect(),
        None => "answer 35\n".to_string(),
    }
}

fn compare(program: &Path, counts: &mut Counts, argument: Option<&[u8]>, length: Option<usize>) -> Checked {
    let arguments: Vec<&OsStr> = argument.into_iter().map(OsStr::from_bytes).collect();
    let output = ran(program, &arguments, &[])?;
    let (found, expected) = (String::from_utf8_lossy(&output.stdout), expected(length));
    if found != expected || !output.stderr.is_empty() {
        return Err(format!(
            "{} {arguments:?}: written {found:?}, expected {expected:?}\n",
            program.display()
        ));
    }
    counts.count(if expected.starts_with("answer") { 35 } else { 0 });
    Ok(())
}

/// Each length up to 12, greater lengths, and arguments that are no length: no digits, too many digits, a sign, a
/// space, a leading zero, each byte that is no digit alone and before and after digits, and arguments of many bytes.
pub fn check(folder: &Path) -> Checked<String> {
    let program = &folder.join("spread");
    let counts = &mut Counts::default();
    compare(program, counts, None, Some(2))?;
    for length in (0..=30).chain([112, 120, 256, 258, 4_294_967_298]) {
        compare(program, counts, Some(length.to_string().as_bytes()), Some(length))?;
    }
    for text in
        ["", "00", "02", "012", "+2", "-2", " 2", "2 ", "2\n", "0x2", "two", "1e1", "18446744073709551618"]
    {
        compare(program, counts, Some(text.as_bytes()), None)?;
    }
    for byte in (1..=255_u8).filter(|byte| !byte.is_ascii_digit()) {
        for text in [&[byte][..], &[byte, b'2'], &[b'2', byte], &[b'1', b'2', byte]] {
            compare(program, counts, Some(text), None)?;
        }
    }
    for size in [3, 4, 4_095, 4_096, 4_097, 70_000] {
        compare(program, counts, Some(&vec![b'1'; size]), None)?;
    }
    counts.summary("spread", &[0, 35])
}
