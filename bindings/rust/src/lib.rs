//! Safe functions over the proved library `walnut`: braid words, keys, E-multiplication and verdicts for WalnutDSA
//! at strengths 128 and 256.
//!
//! Every function takes any bytes. It gives its value, or the [`Refusal`] that holds the number of the first
//! question that the input fails; on a refusal nothing that was lent is changed. What keys, words and move lists look
//! like stands in `walnut.h`, under FILES.
//!
//! Many words verify for one digest, so a word's bytes are no identity of a slip.
//!
//! The crate needs no std. The feature `alloc`, which is on by default, adds what needs an allocator: move lists, the
//! codes of letters as text, and letters parsed with an error. Without it the crate needs core alone.

#![no_std]
#![cfg_attr(not(feature = "alloc"), allow(rustdoc::broken_intra_doc_links))]

#[cfg(feature = "alloc")]
extern crate alloc;
#[cfg(test)]
extern crate std;

mod exported;
mod letters;
mod limits;
#[cfg(feature = "alloc")]
mod moves;
mod refusal;
#[cfg(feature = "alloc")]
mod text;

use exported::*;
use refusal::granted;

pub use exported::{Pair, Shelf};
pub use letters::{letters, Letter, Letters};
pub use limits::*;
#[cfg(feature = "alloc")]
pub use moves::{Move, Moves};
pub use refusal::Refusal;
#[cfg(feature = "alloc")]
pub use text::{codes, NoLetter};

/// One of the two fields, with the sizes that go with it. A key knows its field.
#[derive(Clone, Copy, Debug, PartialEq, Eq, Hash)]
pub enum Field {
    /// 32 elements: strength 128.
    Gf32,
    /// 256 elements: strength 256.
    Gf256,
}

impl Field {
    /// The bytes of a key file over it.
    pub const fn key_bytes(self) -> usize {
        match self {
            Field::Gf32 => KEY_BYTES,
            Field::Gf256 => LARGE_KEY_BYTES,
        }
    }

    /// The bytes of the digest that goes with such a key.
    pub const fn digest_bytes(self) -> usize {
        match self {
            Field::Gf32 => DIGEST_BYTES,
            Field::Gf256 => LARGE_DIGEST_BYTES,
        }
    }

    /// The field as the library takes it: true for the field with 256 elements.
    fn large(self) -> bool {
        self == Field::Gf256
    }

    /// The field that the library names by this value.
    fn named(large: bool) -> Field {
        if large {
            Field::Gf256
        } else {
            Field::Gf32
        }
    }
}

/// Where the entry in a row and a column of a matrix stands, both counted from 1 to 8: every matrix lies column by
/// column, the first one first.
pub fn place(row: usize, column: usize) -> usize {
    assert!((1..=8).contains(&row) && (1..=8).contains(&column), "rows and columns count from 1 to 8");
    8 * (column - 1) + (row - 1)
}

/// A key: its field, its T-values, the pair Pub(S) and the matrix of Pub(S'), column by column too.
#[derive(Clone, Copy, Debug, PartialEq, Eq)]
pub struct Key {
    pub field: Field,
    pub t_values: [u8; 8],
    pub pair: Pair,
    pub second: [u8; 64],
}

/// What several copies of a slip are judged by, the verdict's first half: the key's field, its T-values, the pair
/// Pub(S), and the target, the matrix that a signature must reach.
#[derive(Clone, Copy, Debug, PartialEq, Eq)]
pub struct Half {
    pub field: Field,
    pub t_values: [u8; 8],
    pub pair: Pair,
    pub target: [u8; 64],
}

// In every function below the pointers come from references and slices that live until the call returns. Each slice's
// pointer is passed with its own length. Memory that the call writes is borrowed mutably. The exported functions take
// any bytes.

/// The version of the library as one number: 10,000 for each major version, 100 for each minor one, 1 for each patch.
pub fn version() -> u32 {
    // SAFETY: nothing passes.
    unsafe { walnut_version() }
}

/// The product of two elements of a field.
pub fn product(field: Field, a: u8, b: u8) -> Result<u8, Refusal> {
    // SAFETY: numbers alone pass.
    let element = unsafe { walnut_product(field.large(), a, b) };
    granted(element.answer, element.value)
}

/// The reciprocal of an element other than zero of a field.
pub fn reciprocal(field: Field, a: u8) -> Result<u8, Refusal> {
    // SAFETY: numbers alone pass.
    let element = unsafe { walnut_reciprocal(field.large(), a) };
    granted(element.answer, element.value)
}

impl Pair {
    /// The starting pair: the identity matrix with the list 0 to 7.
    pub fn start() -> Pair {
        // SAFETY: nothing passes.
        unsafe { walnut_start() }
    }

    /// The pair of a matrix and a list of labels. Its positions are the inverse list; a label over 7 has no position.
    pub fn with(matrix: [u8; 64], labels: [u8; 8]) -> Pair {
        let mut positions = [0; 8];
        for (&label, position) in labels.iter().zip(1..) {
            if let Some(place) = positions.get_mut(usize::from(label)) {
                *place = position;
            }
        }
        Pair { matrix, labels, positions }
    }

    /// Where is strand `label`? Its position in the list, from 1 to 8. A label over 7 has none.
    pub fn position(&self, label: u8) -> Option<u8> {
        self.positions.get(usize::from(label)).copied()
    }

    /// Multiplies a letter, given by its code, into the pair, over a field.
    pub fn multiply(&mut self, field: Field, t_values: &[u8; 8], letter: u8) -> Result<(), Refusal> {
        // SAFETY: see above.
        let answer = unsafe { walnut_multiply(self, field.large(), t_values, letter) };
        granted(answer, ())
    }
}

/// Reads a key file.
pub fn read_key(file: &[u8]) -> Result<Key, Refusal> {
    // SAFETY: see above.
    let key = unsafe { walnut_read_key(file.as_ptr(), file.len()) };
    let field = Field::named(key.large);
    granted(key.answer, Key { field, t_values: key.t_values, pair: key.pair, second: key.second })
}

/// The 57 entries that a key file has of a matrix, in the file's order: rows 1 to 7 whole, then the last entry of row
/// 8.
pub fn file_entries(matrix: &[u8; 64]) -> [u8; 57] {
    let mut entries = [0; 57];
    // SAFETY: see above.
    unsafe { walnut_file_entries(matrix, &mut entries) };
    entries
}

/// Writes a key file over a field, from T-values, labels and each matrix's 57 entries; gives the part of the output
/// that holds it.
pub fn write_key<'a>(
    field: Field,
    t_values: &[u8; 8],
    labels: &[u8; 8],
    first: &[u8; 57],
    second: &[u8; 57],
    out: &'a mut [u8],
) -> Result<&'a mut [u8], Refusal> {
    let large = field.large();
    // SAFETY: see above.
    let answer =
        unsafe { walnut_write_key(large, t_values, labels, first, second, out.as_mut_ptr(), out.len()) };
    granted(answer, field.key_bytes()).map(|bytes| &mut out[..bytes])
}

/// Reads a word file: the number of its letters. [`letters`] gives them.
pub fn read_word(file: &[u8]) -> Result<usize, Refusal> {
    // SAFETY: see above.
    let word = unsafe { walnut_read_word(file.as_ptr(), file.len()) };
    granted(word.answer, word.letters)
}

/// The part of the output that a writer of words wrote.
fn written(written: Written, out: &mut [u8]) -> Result<&mut [u8], Refusal> {
    granted(written.answer, written.bytes).map(|bytes| &mut out[..bytes])
}

/// Writes the word file of codes, one to a byte; gives the part of the output that holds it. [`codes`] makes codes of
/// text.
pub fn write_word<'a>(codes: &[u8], out: &'a mut [u8]) -> Result<&'a mut [u8], Refusal> {
    // SAFETY: see above.
    let file = unsafe { walnut_write_word(codes.as_ptr(), codes.len(), out.as_mut_ptr(), out.len()) };
    written(file, out)
}

/// Writes the braid of a digest, of 32 bytes or 64, as a word file; gives the part of the output that holds it.
pub fn encode_digest<'a>(digest: &[u8], out: &'a mut [u8]) -> Result<&'a mut [u8], Refusal> {
    // SAFETY: see above.
    let file = unsafe { walnut_encode_digest(digest.as_ptr(), digest.len(), out.as_mut_ptr(), out.len()) };
    written(file, out)
}

/// Writes the freely reduced word of a word file; gives the part of the output that holds it.
pub fn free_reduce<'a>(word: &[u8], out: &'a mut [u8]) -> Result<&'a mut [u8], Refusal> {
    // SAFETY: see above.
    let file = unsafe { walnut_free_reduce(word.as_ptr(), word.len(), out.as_mut_ptr(), out.len()) };
    written(file, out)
}

/// Writes the stored form of a word file to an output of at least [`STORED_BYTES`]; gives the part of the output that
/// holds it.
pub fn store<'a>(word: &[u8], out: &'a mut [u8]) -> Result<&'a mut [u8], Refusal> {
    // SAFETY: see above.
    let file = unsafe { walnut_store(word.as_ptr(), word.len(), out.as_mut_ptr(), out.len()) };
    written(file, out)
}

/// Writes the word file of a stored form; gives the part of the output that holds it.
pub fn restore<'a>(stored: &[u8], out: &'a mut [u8]) -> Result<&'a mut [u8], Refusal> {
    // SAFETY: see above.
    let file = unsafe { walnut_restore(stored.as_ptr(), stored.len(), out.as_mut_ptr(), out.len()) };
    written(file, out)
}

/// Turns a word file from Artin to Y generators, for parts of 7; gives the part of the output that holds the Y word.
/// Nothing is cancelled.
pub fn to_y<'a>(word: &[u8], parts: &[u8], out: &'a mut [u8]) -> Result<&'a mut [u8], Refusal> {
    let (list, len) = (parts.as_ptr(), parts.len());
    // SAFETY: see above.
    let file = unsafe { walnut_to_y(word.as_ptr(), word.len(), list, len, out.as_mut_ptr(), out.len()) };
    written(file, out)
}

/// Turns a word file from Y to Artin generators, for parts of 7; gives the part of the output that holds the Artin
/// word. Nothing is cancelled.
pub fn from_y<'a>(word: &[u8], parts: &[u8], out: &'a mut [u8]) -> Result<&'a mut [u8], Refusal> {
    let (list, len) = (parts.as_ptr(), parts.len());
    // SAFETY: see above.
    let file = unsafe { walnut_from_y(word.as_ptr(), word.len(), list, len, out.as_mut_ptr(), out.len()) };
    written(file, out)
}

/// Replaces the two letters at a place of a Y word, for parts 4 and 3, by the first relation of source 000's Appendix A
/// that holds them; gives the part of the output that holds the new Y word. If no relation holds them, that is the word
/// itself.
pub fn replace_pair<'a>(word: &[u8], place: usize, out: &'a mut [u8]) -> Result<&'a mut [u8], Refusal> {
    // SAFETY: see above.
    let file = unsafe { walnut_replace_pair(word.as_ptr(), word.len(), place, out.as_mut_ptr(), out.len()) };
    written(file, out)
}

/// Makes the moves of a list on a word file; gives the part of the output that holds the new word. [`Moves`] makes the
/// list's file.
pub fn rewrite<'a>(word: &[u8], moves: &[u8], out: &'a mut [u8]) -> Result<&'a mut [u8], Refusal> {
    let (list, len) = (moves.as_ptr(), moves.len());
    // SAFETY: see above.
    let file = unsafe { walnut_rewrite(word.as_ptr(), word.len(), list, len, out.as_mut_ptr(), out.len()) };
    written(file, out)
}

/// Takes handles out of a word file in at most `limit` steps; gives the part of the output that holds the new word, and
/// whether a handle is left in it. The new word is the same braid, and may be longer: [`shorter`] chooses.
pub fn handle_reduce<'a>(
    word: &[u8],
    limit: u16,
    out: &'a mut [u8],
) -> Result<(&'a mut [u8], bool), Refusal> {
    // SAFETY: see above.
    let handles =
        unsafe { walnut_handle_reduce(word.as_ptr(), word.len(), limit, out.as_mut_ptr(), out.len()) };
    granted(handles.answer, (&mut out[..handles.bytes], handles.left))
}

/// The shorter of two word files, the first on a tie.
pub fn shorter<'a>(a: &'a [u8], b: &'a [u8]) -> Result<&'a [u8], Refusal> {
    // SAFETY: see above.
    let choice = unsafe { walnut_shorter(a.as_ptr(), a.len(), b.as_ptr(), b.len()) };
    granted(choice.answer, if choice.which == 2 { b } else { a })
}

/// Writes a word file that means what the word means, has at most as many letters, and is freely reduced; gives the part
/// of the output that holds it. The effort is the number of steps of the search for each letter: 0 only swaps and
/// cancels, and 5 is usual. With any effort it has at most as many letters as effort 0 leaves. The word written depends
/// on word and effort alone.
pub fn shorten<'a>(word: &[u8], effort: u16, out: &'a mut [u8]) -> Result<&'a mut [u8], Refusal> {
    // SAFETY: see above.
    let file = unsafe { walnut_shorten(word.as_ptr(), word.len(), effort, out.as_mut_ptr(), out.len()) };
    written(file, out)
}

/// The verdict, over the key's field: is the word a signature of the digest under the key?
/// [`Refusal::MATRICES_DIFFER`] if it is not.
pub fn verify(key: &[u8], digest: &[u8], word: &[u8]) -> Result<(), Refusal> {
    let (file, bytes) = (key.as_ptr(), key.len());
    // SAFETY: see above.
    let answer =
        unsafe { walnut_verify(file, bytes, digest.as_ptr(), digest.len(), word.as_ptr(), word.len()) };
    granted(answer, ())
}

/// The first half of the verdict, for several copies of a slip: the digest is encoded once.
pub fn first_half(key: &[u8], digest: &[u8]) -> Result<Half, Refusal> {
    // SAFETY: see above.
    let halved = unsafe { walnut_first_half(key.as_ptr(), key.len(), digest.as_ptr(), digest.len()) };
    let half = halved.half;
    let field = Field::named(half.large);
    granted(halved.answer, Half { field, t_values: half.t_values, pair: half.pair, target: half.target })
}

/// Judges the word by a half that [`first_half`] gave, as [`verify`] does. A half that the caller made is first asked
/// 17, 4, 6 and 26.
pub fn second_half(half: &Half, word: &[u8]) -> Result<(), Refusal> {
    let Half { field, t_values, pair, target } = *half;
    let half = exported::Half { large: field.large(), t_values, pair, target };
    // SAFETY: see above.
    granted(unsafe { walnut_second_half(half, word.as_ptr(), word.len()) }, ())
}

/// Does the word cloak for the list under the key's T-values, over the key's field?
pub fn cloaks(key: &[u8], labels: &[u8], word: &[u8]) -> Result<bool, Refusal> {
    let (file, bytes) = (key.as_ptr(), key.len());
    // SAFETY: see above.
    let cloak =
        unsafe { walnut_cloaks(file, bytes, labels.as_ptr(), labels.len(), word.as_ptr(), word.len()) };
    granted(cloak.answer, cloak.yes)
}

/// How often the strands with labels a and b cross in the word, from the list 0 to 7: its generators that swap just
/// these two, less its inverse letters that do.
pub fn crossings(word: &[u8], a: u8, b: u8) -> Result<i32, Refusal> {
    // SAFETY: see above.
    let crossing = unsafe { walnut_crossings(word.as_ptr(), word.len(), a, b) };
    granted(crossing.answer, crossing.crossings)
}

/// How many words of a length, 0 to [`SPREAD_LENGTH`], over b1, b2, b3 and their inverses lead from the list 0 1 2 3 to
/// this one: four labels, 0 to 3 each once. The words are not reduced.
pub fn words_ending(length: usize, labels: &[u8]) -> Result<u32, Refusal> {
    // SAFETY: see above.
    let count = unsafe { walnut_words_ending(length, labels.as_ptr(), labels.len()) };
    granted(count.answer, count.words)
}

impl Shelf {
    /// The empty shelf.
    pub const fn empty() -> Shelf {
        Shelf { bytes: [0; SHELF_BYTES] }
    }

    /// Loads a key file under a publisher's key number, in place of the key there. On a refusal the shelf is as it was.
    pub fn load(&mut self, publisher: usize, number: usize, key: &[u8]) -> Result<(), Refusal> {
        // SAFETY: see above.
        granted(unsafe { walnut_shelf_load(self, publisher, number, key.as_ptr(), key.len()) }, ())
    }

    /// Clears a publisher's key number, which may be empty. On a refusal the shelf is as it was.
    pub fn clear(&mut self, publisher: usize, number: usize) -> Result<(), Refusal> {
        // SAFETY: see above.
        granted(unsafe { walnut_shelf_clear(self, publisher, number) }, ())
    }

    /// Judges a slip by the key under a publisher's key number, as [`verify`] does with that key's file, and charges its
    /// letters to the publisher. They are charged on [`Refusal::MATRICES_DIFFER`] too; on any other refusal the shelf is
    /// as it was. [`Refusal::ROUND_FULL`] is no verdict.
    pub fn judge(
        &mut self,
        publisher: usize,
        number: usize,
        digest: &[u8],
        word: &[u8],
    ) -> Result<(), Refusal> {
        let ((digest, dn), (word, wn)) = ((digest.as_ptr(), digest.len()), (word.as_ptr(), word.len()));
        // SAFETY: see above.
        granted(unsafe { walnut_shelf_judge(self, publisher, number, digest, dn, word, wn) }, ())
    }

    /// Starts a new round: no letters are charged to either publisher. On a refusal the shelf is as it was.
    pub fn round(&mut self, publisher: usize) -> Result<(), Refusal> {
        // SAFETY: see above.
        granted(unsafe { walnut_shelf_round(self, publisher) }, ())
    }

    /// The letters charged to publisher 1 and to publisher 2 in this round.
    pub const fn charged(&self) -> [u16; 2] {
        let [.., a, b, c, d] = self.bytes;
        [u16::from_be_bytes([a, b]), u16::from_be_bytes([c, d])]
    }
}

impl Default for Shelf {
    fn default() -> Shelf {
        Shelf::empty()
    }
}

impl From<[u8; SHELF_BYTES]> for Shelf {
    /// Any bytes are a shelf.
    fn from(bytes: [u8; SHELF_BYTES]) -> Shelf {
        Shelf { bytes }
    }
}

impl From<Shelf> for [u8; SHELF_BYTES] {
    fn from(shelf: Shelf) -> [u8; SHELF_BYTES] {
        shelf.bytes
    }
}
