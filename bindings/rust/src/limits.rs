//! Sizes and limits, as `walnut.h` states them. `tools/interface` writes this file.

/// Bytes of a key file over the field with 32 elements.
pub const KEY_BYTES: usize = 83;
/// Bytes of a key file over the field with 256 elements.
pub const LARGE_KEY_BYTES: usize = 128;
/// Bytes of the digest that goes with a key of 83 bytes.
pub const DIGEST_BYTES: usize = 32;
/// Bytes of the digest that goes with a key of 128 bytes.
pub const LARGE_DIGEST_BYTES: usize = 64;
/// Bytes of the longest word file; an output for words must have at least as many.
pub const WORD_BYTES: usize = 5002;
/// Bytes of the longest stored form; an output for stored forms must have at least as many.
pub const STORED_BYTES: usize = 5006;
/// Bytes of the longest move list.
pub const MOVES_BYTES: usize = 12290;
/// The most letters of a word.
pub const LETTERS: usize = 10000;
/// The most moves of a list.
pub const MOVES: usize = 4096;
/// The most letters of the words that walnut_words_ending counts.
pub const SPREAD_LENGTH: usize = 12;
/// Bytes of a key shelf.
pub const SHELF_BYTES: usize = 1036;
/// Bytes of stack that a call may take.
pub const STACK_BYTES: usize = 98304;
