//! The digest as a braid (document 01). Document 01 departs from source 000, section 5.1: it chooses other generators,
//! and it cancels nothing between half bytes.

use crate::bits;
use crate::field::Field;
use crate::letter::Letter;
use crate::questions::{first_no, first_refusal};
use crate::word::{room_answer, write_file, Written};

/// The codes of the braid of one half byte. The braid is the p-th power of the pure braid generator for strands l and 8
/// (source 003, section 9, equation (11)). Its letters are b7 down to b_(l+1), then b_l 2 × p times, then the inverses
/// of b_(l+1) up to b7.
pub fn half_byte_braid(half: u8) -> Vec<u8> {
    let l = match half % 4 {
        0 => 7,
        1 => 5,
        2 => 3,
        _ => 1,
    };
    let p = usize::from(half / 4) + 1;
    let down = (l + 1..=7).rev().map(|generator| Letter { generator, inverse: false });
    let core = std::iter::repeat_n(Letter { generator: l, inverse: false }, 2 * p);
    let up = (l + 1..=7).map(|generator| Letter { generator, inverse: true });
    down.chain(core).chain(up).map(Letter::code).collect()
}

/// The codes of a digest's braid: the braids of its half bytes one after another, the high half of each byte first.
pub fn digest_braid(digest: &[u8]) -> Vec<u8> {
    bits::numbers(&bits::of_bytes(digest), 4).into_iter().flat_map(half_byte_braid).collect()
}

/// The answer to the question about a digest under a key over this field: 0 if the digest has the length that goes with
/// the key, otherwise 8.
pub fn digest_answer(field: Field, digest: &[u8]) -> u8 {
    first_no(&[(8, |(field, bytes): &(Field, usize)| *bytes == field.digest_bytes())], &(field, digest.len()))
}

/// The answer to the question about a digest without a key: 0 if the digest has 32 or 64 bytes, otherwise 8.
fn any_digest_answer(digest: &[u8]) -> u8 {
    first_no(
        &[(8, |bytes: &usize| Field::BOTH.iter().any(|field| *bytes == field.digest_bytes()))],
        &digest.len(),
    )
}

/// Writes the digest's braid as a word file. Answers: 15, 8.
pub fn encode_digest(digest: &[u8], out: &mut [u8]) -> Written {
    match first_refusal(&[room_answer(out), any_digest_answer(digest)]) {
        0 => write_file(&digest_braid(digest), out),
        answer => Written::refusal(answer),
    }
}
