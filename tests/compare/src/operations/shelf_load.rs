//! Loading a key into a shelf.

use reference::shelf::SHELF_BYTES;

use crate::make::shelves::{bad_place, lent, place};
use crate::operation::prelude::*;

pub struct ShelfLoad;

impl Operation for ShelfLoad {
    fn facts(&self) -> Facts {
        let parts = &[parts::SHELF, parts::PUBLISHER, parts::NUMBER, parts::KEY];
        let facts = Facts::of("shelf_load", &[30, 1, 2, 3, 4, 5, 6, 7, 26], parts);
        Facts { over: Over::Key, share: 3, ..facts }
    }

    fn make(&self, maker: &mut Maker, field: Field, faults: &[u8], _: Size) -> Option<Parts> {
        let shelf = maker.shelf();
        let random = &mut maker.random;
        let at = if faults.contains(&30) { bad_place(random) } else { place(random) };
        Some([vec![shelf], at, vec![maker.key(field, faults)]].concat())
    }

    fn call(&self, by: By, input: &Input) -> Outcome {
        let ([_, _, _, key], publisher, number) = (input.slices(), input.size(1), input.size(2));
        match by {
            By::Library => lent(input, |shelf| unsafe {
                // SAFETY: see `Operation::call`.
                walnut_shelf_load(shelf, publisher, number, key.as_ptr(), key.len())
            }),
            By::Reference => {
                let mut shelf = input.shelf();
                Outcome::of(shelf.load(publisher, number, key)).bytes(shelf.bytes())
            }
        }
    }

    /// The shelf stays unchanged on a refusal.
    fn refused(&self, input: &Input) -> Vec<u8> {
        input.parts[0].clone()
    }

    fn fixed(&self) -> Vec<Fixed> {
        let mut cases: Vec<Fixed> = places().into_iter().chain(replaced()).chain(nobody()).collect();
        for (name, key, answer) in keys::refused() {
            cases.push(load(&name, &[7; SHELF_BYTES], 2, 3, &key).refused(answer));
            cases.push(load(&name, &[7; SHELF_BYTES], 2, 4, &key).refused(30));
        }
        cases
    }
}

fn load(name: &str, shelf: &[u8], publisher: usize, number: usize, key: &[u8]) -> Fixed {
    let name = format!("{name}, publisher {publisher}, number {number}");
    let (publisher, number) = (publisher.to_be_bytes(), number.to_be_bytes());
    Fixed::of(&ShelfLoad, &name, &[shelf, &publisher, &number, key])
}

/// Loads a key into each slot. The slots of publisher 1 begin at 0, 129, 258 and 387, those of publisher 2 at 516, 645,
/// 774 and 903. A slot has 129 bytes: the length of the file, the file, and zeros. The bytes of all other slots stay.
fn places() -> Vec<Fixed> {
    let slots = [
        (1, 0, 0),
        (1, 1, 129),
        (1, 2, 258),
        (1, 3, 387),
        (2, 0, 516),
        (2, 1, 645),
        (2, 2, 774),
        (2, 3, 903),
    ];
    let mut cases = Vec::new();
    for (publisher, number, at) in slots {
        for (key, length) in [(keys::plain(Field::Gf32), 83), (keys::plain(Field::Gf256), 128)] {
            let before = [0xAA; SHELF_BYTES];
            let mut after = before.to_vec();
            after[at] = length;
            after[at + 1..at + 129].fill(0);
            after[at + 1..at + 1 + key.len()].copy_from_slice(&key);
            cases.push(load("a plain key", &before, publisher, number, &key).bytes(after));
        }
    }
    cases
}

/// A key of 83 bytes that replaces a key of 128 bytes leaves none of the old bytes.
fn replaced() -> Vec<Fixed> {
    let [small, large] = Field::BOTH.map(keys::plain);
    let slot = |key: &[u8]| {
        let mut shelf = [vec![0; 129], vec![key.len() as u8], key.to_vec()].concat();
        shelf.resize(SHELF_BYTES, 0);
        shelf
    };
    vec![load("83 bytes over 128", &slot(&large), 1, 1, &small).bytes(slot(&small))]
}

/// The only publishers are 1 and 2, and the key numbers are 0 to 3. Any other number must be refused, and must not
/// reach a slot.
fn nobody() -> Vec<Fixed> {
    let key = keys::plain(Field::Gf32);
    let places =
        [(0, 0), (3, 0), (1, 4), (2, 4), (0, 4), (257, 0), (1, 256), (usize::MAX, 0), (1, usize::MAX)];
    let refused =
        |(publisher, number)| load("nobody", &[0; SHELF_BYTES], publisher, number, &key).refused(30);
    places.into_iter().map(refused).collect()
}
