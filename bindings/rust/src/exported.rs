//! The exported functions and their structs, as `walnut.h` declares them. `tests/compare` reads this file
//! too. `tools/interface` writes it.

/// An element of a field. On a refusal it is 0.
#[repr(C)]
#[derive(Clone, Copy, Debug, PartialEq, Eq)]
pub struct Element {
    pub answer: u8,
    pub value: u8,
}

/// The number of letters of a word. On a refusal it is 0.
#[repr(C)]
#[derive(Clone, Copy, Debug, PartialEq, Eq)]
pub struct Word {
    pub answer: u8,
    pub letters: usize,
}

/// The number of bytes written to the front of the output. On a refusal it is 0. Bytes after them do not change.
#[repr(C)]
#[derive(Clone, Copy, Debug, PartialEq, Eq)]
pub struct Written {
    pub answer: u8,
    pub bytes: usize,
}

/// The number of bytes written to the front of the output, and whether the word there has a handle. On a refusal they
/// are 0 and false. Bytes after them do not change.
#[repr(C)]
#[derive(Clone, Copy, Debug, PartialEq, Eq)]
pub struct Handles {
    pub answer: u8,
    pub bytes: usize,
    pub left: bool,
}

/// Which of two files is the shorter: 1 for the first, 2 for the second. On a refusal it is 0.
#[repr(C)]
#[derive(Clone, Copy, Debug, PartialEq, Eq)]
pub struct Choice {
    pub answer: u8,
    pub which: u8,
}

/// Whether a word cloaks. On a refusal it is false.
#[repr(C)]
#[derive(Clone, Copy, Debug, PartialEq, Eq)]
pub struct Cloak {
    pub answer: u8,
    pub yes: bool,
}

/// The signed number of crossings of two strands. On a refusal it is 0.
#[repr(C)]
#[derive(Clone, Copy, Debug, PartialEq, Eq)]
pub struct Crossing {
    pub answer: u8,
    pub crossings: i32,
}

/// The number of words that end in a list. On a refusal it is 0.
#[repr(C)]
#[derive(Clone, Copy, Debug, PartialEq, Eq)]
pub struct Count {
    pub answer: u8,
    pub words: u32,
}

/// A matrix, with its entries as WALNUT_PLACE says, a list of labels, and the inverse list: `positions[a]` is the
/// position of label a in the list, counted from 1. In a pair of the caller's own, `positions[labels[i]]` must be i + 1
/// for each i from 0 to 7.
#[repr(C)]
#[derive(Clone, Copy, Debug, PartialEq, Eq)]
pub struct Pair {
    pub matrix: [u8; 64],
    pub labels: [u8; 8],
    pub positions: [u8; 8],
}

/// A key: its field, its T-values, the pair Pub(S), and `second`, the matrix of Pub(S'). On a refusal the field is the
/// one with 32 elements, and all numbers are 0.
#[repr(C)]
#[derive(Clone, Copy, Debug, PartialEq, Eq)]
pub struct Key {
    pub answer: u8,
    pub large: bool,
    pub t_values: [u8; 8],
    pub pair: Pair,
    pub second: [u8; 64],
}

/// The first half of a verdict: the field, the T-values, the pair Pub(S), and `target`, the matrix that a signature
/// must reach.
#[repr(C)]
#[derive(Clone, Copy, Debug, PartialEq, Eq)]
pub struct Half {
    pub large: bool,
    pub t_values: [u8; 8],
    pub pair: Pair,
    pub target: [u8; 64],
}

/// A half. On a refusal its field is the one with 32 elements, and all its numbers are 0.
#[repr(C)]
#[derive(Clone, Copy, Debug, PartialEq, Eq)]
pub struct Halved {
    pub answer: u8,
    pub half: Half,
}

/// The keys of two publishers and their charged letters, as FILES says. All zeros are the empty shelf.
#[repr(C)]
#[derive(Clone, Copy, Debug, PartialEq, Eq)]
pub struct Shelf {
    pub bytes: [u8; 1036],
}

extern "C" {
    pub fn walnut_version() -> u32;
    pub fn walnut_product(large: bool, a: u8, b: u8) -> Element;
    pub fn walnut_reciprocal(large: bool, a: u8) -> Element;
    pub fn walnut_start() -> Pair;
    pub fn walnut_multiply(pair: *mut Pair, large: bool, t_values: *const [u8; 8], letter: u8) -> u8;
    pub fn walnut_read_key(file: *const u8, len: usize) -> Key;
    pub fn walnut_file_entries(matrix: *const [u8; 64], entries: *mut [u8; 57]);
    pub fn walnut_write_key(
        large: bool,
        t_values: *const [u8; 8],
        labels: *const [u8; 8],
        first: *const [u8; 57],
        second: *const [u8; 57],
        out: *mut u8,
        len: usize,
    ) -> u8;
    pub fn walnut_read_word(file: *const u8, len: usize) -> Word;
    pub fn walnut_write_word(codes: *const u8, n: usize, out: *mut u8, len: usize) -> Written;
    pub fn walnut_encode_digest(digest: *const u8, n: usize, out: *mut u8, len: usize) -> Written;
    pub fn walnut_free_reduce(word: *const u8, n: usize, out: *mut u8, len: usize) -> Written;
    pub fn walnut_store(word: *const u8, n: usize, out: *mut u8, len: usize) -> Written;
    pub fn walnut_restore(stored: *const u8, n: usize, out: *mut u8, len: usize) -> Written;
    pub fn walnut_to_y(
        word: *const u8,
        n: usize,
        parts: *const u8,
        pn: usize,
        out: *mut u8,
        len: usize,
    ) -> Written;
    pub fn walnut_from_y(
        word: *const u8,
        n: usize,
        parts: *const u8,
        pn: usize,
        out: *mut u8,
        len: usize,
    ) -> Written;
    pub fn walnut_replace_pair(word: *const u8, n: usize, place: usize, out: *mut u8, len: usize) -> Written;
    pub fn walnut_rewrite(
        word: *const u8,
        n: usize,
        moves: *const u8,
        m: usize,
        out: *mut u8,
        len: usize,
    ) -> Written;
    pub fn walnut_handle_reduce(word: *const u8, n: usize, limit: u16, out: *mut u8, len: usize) -> Handles;
    pub fn walnut_shorter(a: *const u8, an: usize, b: *const u8, bn: usize) -> Choice;
    pub fn walnut_shorten(word: *const u8, n: usize, effort: u16, out: *mut u8, len: usize) -> Written;
    pub fn walnut_verify(
        key: *const u8,
        kn: usize,
        digest: *const u8,
        dn: usize,
        word: *const u8,
        wn: usize,
    ) -> u8;
    pub fn walnut_first_half(key: *const u8, kn: usize, digest: *const u8, dn: usize) -> Halved;
    pub fn walnut_second_half(half: Half, word: *const u8, n: usize) -> u8;
    pub fn walnut_cloaks(
        key: *const u8,
        kn: usize,
        labels: *const u8,
        ln: usize,
        word: *const u8,
        wn: usize,
    ) -> Cloak;
    pub fn walnut_crossings(word: *const u8, n: usize, a: u8, b: u8) -> Crossing;
    pub fn walnut_words_ending(length: usize, labels: *const u8, n: usize) -> Count;
    pub fn walnut_shelf_load(
        shelf: *mut Shelf,
        publisher: usize,
        number: usize,
        key: *const u8,
        n: usize,
    ) -> u8;
    pub fn walnut_shelf_clear(shelf: *mut Shelf, publisher: usize, number: usize) -> u8;
    pub fn walnut_shelf_judge(
        shelf: *mut Shelf,
        publisher: usize,
        number: usize,
        digest: *const u8,
        dn: usize,
        word: *const u8,
        wn: usize,
    ) -> u8;
    pub fn walnut_shelf_round(shelf: *mut Shelf, publisher: usize) -> u8;
}
