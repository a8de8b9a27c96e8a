//! A new round on a shelf.

use reference::shelf::SHELF_BYTES;

use crate::make::shelves::{bad_publisher, lent};
use crate::operation::prelude::*;

pub struct ShelfRound;

impl Operation for ShelfRound {
    fn facts(&self) -> Facts {
        Facts { share: 1, ..Facts::of("shelf_round", &[30], &[parts::SHELF, parts::PUBLISHER]) }
    }

    fn make(&self, maker: &mut Maker, _: Field, faults: &[u8], _: Size) -> Option<Parts> {
        let shelf = maker.shelf();
        let random = &mut maker.random;
        let publisher = if faults.contains(&30) { bad_publisher(random) } else { random.within(1, 2) };
        Some(vec![shelf, publisher.to_be_bytes().to_vec()])
    }

    fn call(&self, by: By, input: &Input) -> Outcome {
        let publisher = input.size(1);
        match by {
            // SAFETY: see `Operation::call`.
            By::Library => lent(input, |shelf| unsafe { walnut_shelf_round(shelf, publisher) }),
            By::Reference => {
                let mut shelf = input.shelf();
                Outcome::of(shelf.round(publisher)).bytes(shelf.bytes())
            }
        }
    }

    /// The shelf stays unchanged on a refusal.
    fn refused(&self, input: &Input) -> Vec<u8> {
        input.parts[0].clone()
    }

    /// Bytes 1032 to 1035 become zeros, and all other bytes stay, whichever publisher starts the round.
    fn fixed(&self) -> Vec<Fixed> {
        let mut cases = vec![round("the empty shelf", &[0; SHELF_BYTES], 1).bytes(vec![0; SHELF_BYTES])];
        for publisher in [1, 2] {
            let after = [vec![0xAA; 1032], vec![0; 4]].concat();
            cases.push(round("a shelf of AA", &[0xAA; SHELF_BYTES], publisher).bytes(after));
        }
        for publisher in [0, 3, 257, 258, 1 << 32 | 1, usize::MAX] {
            cases.push(round("nobody", &[0xAA; SHELF_BYTES], publisher).refused(30));
        }
        cases
    }
}

fn round(name: &str, shelf: &[u8], publisher: usize) -> Fixed {
    let name = format!("{name}, publisher {publisher}");
    Fixed::of(&ShelfRound, &name, &[shelf, &publisher.to_be_bytes()])
}
