//! Clearing a key number of a shelf.

use reference::shelf::SHELF_BYTES;

use crate::make::shelves::{bad_place, lent, place};
use crate::operation::prelude::*;

pub struct ShelfClear;

impl Operation for ShelfClear {
    fn facts(&self) -> Facts {
        let facts = Facts::of("shelf_clear", &[30], &[parts::SHELF, parts::PUBLISHER, parts::NUMBER]);
        Facts { share: 1, ..facts }
    }

    fn make(&self, maker: &mut Maker, _: Field, faults: &[u8], _: Size) -> Option<Parts> {
        let shelf = maker.shelf();
        let random = &mut maker.random;
        let at = if faults.contains(&30) { bad_place(random) } else { place(random) };
        Some([vec![shelf], at].concat())
    }

    fn call(&self, by: By, input: &Input) -> Outcome {
        let (publisher, number) = (input.size(1), input.size(2));
        match by {
            // SAFETY: see `Operation::call`.
            By::Library => lent(input, |shelf| unsafe { walnut_shelf_clear(shelf, publisher, number) }),
            By::Reference => {
                let mut shelf = input.shelf();
                Outcome::of(shelf.clear(publisher, number)).bytes(shelf.bytes())
            }
        }
    }

    /// The shelf stays unchanged on a refusal.
    fn refused(&self, input: &Input) -> Vec<u8> {
        input.parts[0].clone()
    }

    /// The 129 bytes of slot 4 (publisher - 1) + number become zeros. All other bytes stay.
    fn fixed(&self) -> Vec<Fixed> {
        let mut cases = vec![clear("the empty shelf", &[0; SHELF_BYTES], 1, 0).bytes(vec![0; SHELF_BYTES])];
        for (publisher, number, at) in [(1, 0, 0), (1, 3, 387), (2, 0, 516), (2, 3, 903)] {
            let before = [0xAA; SHELF_BYTES];
            let mut after = before.to_vec();
            after[at..at + 129].fill(0);
            cases.push(clear("a shelf of AA", &before, publisher, number).bytes(after));
        }
        for (publisher, number) in [(0, 0), (3, 0), (1, 4), (2, 4), (258, 0), (1, 1 << 32)] {
            cases.push(clear("nobody", &[0xAA; SHELF_BYTES], publisher, number).refused(30));
        }
        cases
    }
}

fn clear(name: &str, shelf: &[u8], publisher: usize, number: usize) -> Fixed {
    let name = format!("{name}, publisher {publisher}, number {number}");
    Fixed::of(&ShelfClear, &name, &[shelf, &publisher.to_be_bytes(), &number.to_be_bytes()])
}
