//! The starting pair.

use crate::library::{pair_bytes, pair_of};
use crate::operation::prelude::*;

pub struct Start;

impl Operation for Start {
    fn facts(&self) -> Facts {
        Facts { share: 0, ..Facts::of("start", &[], &[]) }
    }

    fn make(&self, _: &mut Maker, _: Field, _: &[u8], _: Size) -> Option<Parts> {
        Some(vec![])
    }

    fn call(&self, by: By, _: &Input) -> Outcome {
        let pair = match by {
            // SAFETY: the function takes nothing.
            By::Library => pair_of(unsafe { walnut_start() }),
            By::Reference => reference::start(),
        };
        Outcome::of(0).bytes(pair_bytes(&pair))
    }

    fn fixed(&self) -> Vec<Fixed> {
        vec![Fixed::of(&Start, "the starting pair", &[]).bytes([&identity()[..], &LISTS].concat())]
    }
}
