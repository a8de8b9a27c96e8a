//! A slip on the desk's standard input: key, digest and signature, one directly after another (document 01, "Slips to
//! check by"; document 02, section 7).

use crate::field::Field;
use crate::verdict::verify;
use crate::word::MOST_BYTES;

/// The most bytes that are read of a signature. It is one byte more than the longest word file, so that a longer file
/// is still refused.
pub const SIGNATURE_BYTES: usize = MOST_BYTES + 1;

/// The field that decides where the input is cut. It is the field with 256 elements if bytes 1 and 2, counted from 0,
/// hold the number 256. Otherwise it is the field with 32.
pub fn field_told(input: &[u8]) -> Field {
    match input {
        [_, 1, 0, ..] => Field::Gf256,
        _ => Field::Gf32,
    }
}

/// Cuts the input into key, digest and signature. If the input ends early, a part is short or empty. Bytes after the
/// first 5,003 of the signature are ignored.
pub fn parts(input: &[u8]) -> [&[u8]; 3] {
    let field = field_told(input);
    let (key, rest) = input.split_at(input.len().min(field.key_bytes()));
    let (digest, rest) = rest.split_at(rest.len().min(field.digest_bytes()));
    [key, digest, &rest[..rest.len().min(SIGNATURE_BYTES)]]
}

/// The answer to a slip on standard input.
pub fn answer(input: &[u8]) -> u8 {
    let [key, digest, signature] = parts(input);
    verify(key, digest, signature)
}
