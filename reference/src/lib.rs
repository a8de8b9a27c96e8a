//! A second, independent implementation of the operations of document 01 ("Loan-slip signatures: braid words, keys and
//! moves") and of document 02's sections 1, 2, 4, 6, 7, 8, 9, 11, 13 and 14. Tests compare the library with it.
//!
//! It is written to be plain, not fast, and uses another method wherever there is one:
//!
//! - the fields multiply the two bit strings as polynomials and divide by x^5 + x^2 + 1 or by
//!   x^8 + x^4 + x^3 + x^2 + 1, without tables; a reciprocal is found by Euclid's algorithm on polynomials
//!   ([`field`]);
//! - a matrix has an inverse if its determinant is not 0; the determinant is computed by expansion, without elimination
//!   ([`matrix`]);
//! - a letter acts on a pair as a whole coloured Burau matrix, by the general matrix product ([`pair`]);
//! - files are packed and unpacked over an explicit string of bits ([`bits`]), where each part of a key of either
//!   size has its place ([`key`]), and the signs and the generators of a stored form have strings of their own
//!   ([`stored`]);
//! - free reduction removes the first cancelling neighbours, again and again ([`reduce`]);
//! - each step of handle reduction looks for all handles of the whole word ([`handles`]);
//! - an arc is split into its strand's places and the gaps of the other letters before it is laid anew ([`shortener`]);
//!   the papers do not have this operation, and its search is the same as the library's;
//! - a move replaces letters in a list of letters, and the next move works on the list that it left
//!   ([`rewrite`](mod@rewrite));
//! - how often two strands cross is found by following these two alone, without a list of labels ([`crossing`]);
//! - how many words end in a list is counted by making every word of up to eight letters, and for more letters by
//!   powers of a matrix ([`spread`]);
//! - parts of 7 are stored as the generators at which a part ends, and the relations of the Y dialect are written as
//!   signed numbers ([`dialect`]);
//! - the halves of a verdict compute both sides in another way than the whole verdict: the target half byte by half
//!   byte, and the signature's letters from the identity matrix ([`half`]);
//! - a key shelf is a map from publisher and key number to a slot, without any place in bytes, and the test whether a
//!   slip is admitted to the chip comes after its verdict ([`shelf`]);
//! - the questions stand in lists, in the paper's order, and the answer is the number of the first one
//!   answered no ([`questions`]).
//!
//! Answers are the paper's numbers. 0 is success. On a refusal lent buffers and pairs keep their bytes, returned
//! numbers, keys and pairs are zeros, and a yes or no is no. A doc comment gives a function's refusals after
//! "Answers:", in the order of their questions.
//!
//! This file re-exports the functions that mirror the exported interface. Each module has the definitions of one layer.
//! The [`verdict`], its halves, the rewriter, [`cloak`] and [`reduce`] use [`pair`], [`key`], [`digest`] and [`word`].
//! The [`desk`] uses the verdict. [`testkit`] has what only tests need, such as matrices of a chosen rank, slips that
//! the verdict accepts, move lists that the rewriter accepts, and words that cloak.

pub mod bits;
pub mod cloak;
pub mod crossing;
pub mod desk;
pub mod dialect;
pub mod digest;
pub mod field;
pub mod half;
pub mod handles;
pub mod key;
pub mod letter;
pub mod matrix;
pub mod pair;
pub mod questions;
pub mod reduce;
pub mod rewrite;
pub mod shelf;
pub mod shortener;
pub mod spread;
pub mod stored;
pub mod testkit;
pub mod verdict;
pub mod word;

pub use cloak::{cloaks, Cloak};
pub use crossing::{crossings, Crossing};
pub use dialect::{from_y, replace_pair, to_y};
pub use digest::encode_digest;
pub use field::{product, reciprocal, Element, Field};
pub use half::{first_half, second_half, Half, Halved};
pub use handles::{handle_reduce, shorter, Choice, Handles};
pub use key::{file_entries, read_key, write_key, Key};
pub use matrix::{matrix_product, Matrix};
pub use pair::{multiply, start, Pair};
pub use reduce::free_reduce;
pub use rewrite::rewrite;
pub use shelf::Shelf;
pub use shortener::shorten;
pub use spread::{words_ending, Count};
pub use stored::{restore, store};
pub use verdict::verify;
pub use word::{code_part, letter_at, letters, read_word, write_word, Word, WordReader, Written};

/// N, the number of strands (document 01, head).
pub const STRANDS: usize = 8;
