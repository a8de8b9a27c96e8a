//! Inputs for tests: random numbers, words and pairs ([`Random`]), matrices with an inverse and without one
//! ([`matrices`]), slips that the verdict accepts ([`slips`]), move lists that the rewriter accepts ([`walks`]), words
//! that cloak ([`cloaks`]), words to shorten ([`braids`]), and parts of a number ([`parts`]).

pub mod braids;
pub mod cloaks;
pub mod matrices;
pub mod parts;
pub mod random;
pub mod slips;
pub mod walks;

pub use braids::signatures;
pub use cloaks::inserted;
pub use matrices::inverse_matrix;
pub use parts::compositions;
pub use random::Random;
pub use slips::{accepted_slip, Slip};
pub use walks::{exponent_sum, move_list, Walk};
