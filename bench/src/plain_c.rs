//! Calls the functions of `plain.c`.

use crate::plain::{relations, SHELF_BYTES};

extern "C" {
    fn plain_tables();
    fn plain_relations(rows: *const u8);
    fn plain_read_key(file: *const u8, n: usize) -> u8;
    fn plain_verify(
        key: *const u8,
        kn: usize,
        digest: *const u8,
        dn: usize,
        word: *const u8,
        wn: usize,
    ) -> u8;
    fn plain_first_half(key: *const u8, kn: usize, digest: *const u8, dn: usize) -> u8;
    fn plain_second_half(word: *const u8, wn: usize) -> u8;
    fn plain_cloaks(
        key: *const u8,
        kn: usize,
        labels: *const u8,
        ln: usize,
        word: *const u8,
        wn: usize,
        by_columns: bool,
    ) -> u32;
    fn plain_multiply(pair: *mut u8, t_values: *const u8, letter: u8) -> u8;
    fn plain_rewrite(
        word: *const u8,
        wn: usize,
        moves: *const u8,
        m: usize,
        out: *mut u8,
        len: usize,
    ) -> usize;
    fn plain_reduce(word: *const u8, wn: usize, out: *mut u8, len: usize) -> usize;
    fn plain_shorten(word: *const u8, wn: usize, effort: u16, out: *mut u8, len: usize) -> usize;
    fn plain_handles(
        word: *const u8,
        wn: usize,
        limit: u16,
        again: bool,
        out: *mut u8,
        len: usize,
        number: *mut u32,
    ) -> usize;
    fn plain_store(word: *const u8, n: usize, out: *mut u8, len: usize) -> usize;
    fn plain_restore(stored: *const u8, n: usize, out: *mut u8, len: usize) -> usize;
    fn plain_convert(
        to_y: bool,
        word: *const u8,
        wn: usize,
        parts: *const u8,
        pn: usize,
        out: *mut u8,
        len: usize,
    ) -> usize;
    fn plain_replace_pair(word: *const u8, wn: usize, place: usize, out: *mut u8, len: usize) -> usize;
    fn plain_crossings(word: *const u8, wn: usize, a: u8, b: u8) -> i32;
    fn plain_words_ending(length: usize, labels: *const u8, n: usize) -> u32;
    fn plain_shelf_load(shelf: *mut u8, publisher: usize, number: usize, key: *const u8, n: usize) -> u8;
    fn plain_shelf_judge(
        shelf: *mut u8,
        publisher: usize,
        number: usize,
        digest: *const u8,
        dn: usize,
        word: *const u8,
        wn: usize,
    ) -> u8;
}

// SAFETY of all calls: each pointer comes from a slice or an array that lives until the call returns, and a slice's
// pointer is passed with the slice's own length. The program has one thread. It fills the tables, and the half that
// `plain.c` keeps, before anything reads them.

pub fn tables() {
    // SAFETY: see above.
    unsafe {
        plain_tables();
        plain_relations(relations().as_ptr().cast());
    }
}

pub fn read_key(file: &[u8]) -> u8 {
    // SAFETY: see above.
    unsafe { plain_read_key(file.as_ptr(), file.len()) }
}

pub fn verify(key: &[u8], digest: &[u8], word: &[u8]) -> u8 {
    let (file, bytes) = (key.as_ptr(), key.len());
    // SAFETY: see above.
    unsafe { plain_verify(file, bytes, digest.as_ptr(), digest.len(), word.as_ptr(), word.len()) }
}

/// The refusal of the first half, or the sum of the second half's answers to the words.
pub fn by_halves(key: &[u8], digest: &[u8], words: &[Vec<u8>]) -> u32 {
    // SAFETY: see above.
    let second = |word: &Vec<u8>| u32::from(unsafe { plain_second_half(word.as_ptr(), word.len()) });
    // SAFETY: see above.
    match unsafe { plain_first_half(key.as_ptr(), key.len(), digest.as_ptr(), digest.len()) } {
        0 => words.iter().map(second).sum(),
        answer => answer.into(),
    }
}

pub fn cloaks(key: &[u8], labels: &[u8], word: &[u8], by_columns: bool) -> u32 {
    let ((file, bytes), (list, n)) = ((key.as_ptr(), key.len()), (labels.as_ptr(), labels.len()));
    // SAFETY: see above.
    unsafe { plain_cloaks(file, bytes, list, n, word.as_ptr(), word.len(), by_columns) }
}

/// Multiplies a letter into a pair. The pair is its matrix, row by row, then its labels and their positions.
pub fn multiply(pair: &mut [u8; 80], t_values: &[u8; 8], letter: u8) -> u8 {
    // SAFETY: see above.
    unsafe { plain_multiply(pair.as_mut_ptr(), t_values.as_ptr(), letter) }
}

pub fn rewrite(word: &[u8], moves: &[u8], out: &mut [u8]) -> usize {
    let (list, len) = (moves.as_ptr(), moves.len());
    // SAFETY: see above.
    unsafe { plain_rewrite(word.as_ptr(), word.len(), list, len, out.as_mut_ptr(), out.len()) }
}

pub fn free_reduce(word: &[u8], out: &mut [u8]) -> usize {
    // SAFETY: see above.
    unsafe { plain_reduce(word.as_ptr(), word.len(), out.as_mut_ptr(), out.len()) }
}

/// Takes handles out of a word. Returns twice the answer, plus 1 if a handle is left, and the number of bytes written.
/// If `again` is true, each step begins at the front of the word.
pub fn handles(word: &[u8], limit: u16, again: bool, out: &mut [u8]) -> (u32, usize) {
    let (mut number, (file, len)) = (0, (out.as_mut_ptr(), out.len()));
    // SAFETY: see above.
    let bytes = unsafe { plain_handles(word.as_ptr(), word.len(), limit, again, file, len, &mut number) };
    (number, bytes)
}

pub fn shorten(word: &[u8], effort: u16, out: &mut [u8]) -> usize {
    // SAFETY: see above.
    unsafe { plain_shorten(word.as_ptr(), word.len(), effort, out.as_mut_ptr(), out.len()) }
}

pub fn crossings(word: &[u8], a: u8, b: u8) -> i32 {
    // SAFETY: see above.
    unsafe { plain_crossings(word.as_ptr(), word.len(), a, b) }
}

pub fn store(word: &[u8], out: &mut [u8]) -> usize {
    // SAFETY: see above.
    unsafe { plain_store(word.as_ptr(), word.len(), out.as_mut_ptr(), out.len()) }
}

pub fn restore(stored: &[u8], out: &mut [u8]) -> usize {
    // SAFETY: see above.
    unsafe { plain_restore(stored.as_ptr(), stored.len(), out.as_mut_ptr(), out.len()) }
}

pub fn words_ending(length: usize, labels: &[u8]) -> u32 {
    // SAFETY: see above.
    unsafe { plain_words_ending(length, labels.as_ptr(), labels.len()) }
}

pub fn convert(to_y: bool, word: &[u8], parts: &[u8], out: &mut [u8]) -> usize {
    let (list, count) = (parts.as_ptr(), parts.len());
    // SAFETY: see above.
    unsafe { plain_convert(to_y, word.as_ptr(), word.len(), list, count, out.as_mut_ptr(), out.len()) }
}

pub fn replace_pair(word: &[u8], place: usize, out: &mut [u8]) -> usize {
    // SAFETY: see above.
    unsafe { plain_replace_pair(word.as_ptr(), word.len(), place, out.as_mut_ptr(), out.len()) }
}

pub fn shelf_load(shelf: &mut [u8; SHELF_BYTES], publisher: usize, number: usize, key: &[u8]) -> u8 {
    // SAFETY: see above.
    unsafe { plain_shelf_load(shelf.as_mut_ptr(), publisher, number, key.as_ptr(), key.len()) }
}

pub fn shelf_judge(
    shelf: &mut [u8; SHELF_BYTES],
    publisher: usize,
    number: usize,
    digest: &[u8],
    word: &[u8],
) -> u8 {
    let ((digest, dn), (word, wn)) = ((digest.as_ptr(), digest.len()), (word.as_ptr(), word.len()));
    // SAFETY: see above.
    unsafe { plain_shelf_judge(shelf.as_mut_ptr(), publisher, number, digest, dn, word, wn) }
}
