//! Makes key shelves, valid and invalid places in them, and charges at the limits of a round.

use reference::shelf::SHELF_BYTES;
use reference::testkit::Random;

use crate::case::{Input, Outcome, Parts};
use crate::exported::Shelf;
use crate::make::Maker;

/// A publisher and a key number as parts.
pub fn place_of(publisher: usize, number: usize) -> Parts {
    vec![publisher.to_be_bytes().to_vec(), number.to_be_bytes().to_vec()]
}

/// A publisher and a key number that a shelf has.
pub fn place(random: &mut Random) -> Parts {
    place_of(random.within(1, 2), random.within(0, 3))
}

/// A publisher that is not 1 or 2.
pub fn bad_publisher(random: &mut Random) -> usize {
    random.pick(&[0, 3, 4, 255, 256, 257, 258, 1 << 32 | 1, usize::MAX])
}

/// A publisher that is not 1 or 2, a key number over 3, or both.
pub fn bad_place(random: &mut Random) -> Parts {
    let publisher = bad_publisher(random);
    let number = random.pick(&[4, 5, 7, 8, 255, 256, 259, 1 << 32, usize::MAX]);
    let (good, held) = (random.within(1, 2), random.within(0, 3));
    match random.below(3) {
        0 => place_of(publisher, held),
        1 => place_of(good, number),
        _ => place_of(publisher, number),
    }
}

/// Puts a file of at most 128 bytes into the slot of a place. If `with_length` is false, the slot's length is 0, which
/// means that the slot holds no file.
pub fn put(shelf: &mut [u8], at: &Parts, file: &[u8], with_length: bool) {
    let (publisher, number) = (usize::from(at[0][7]), usize::from(at[1][7]));
    let slot = &mut shelf[129 * (4 * (publisher - 1) + number)..][..129];
    slot[0] = if with_length { file.len() as u8 } else { 0 };
    slot[1..].fill(0);
    slot[1..1 + file.len()].copy_from_slice(file);
}

/// Puts the letters charged to publishers 1 and 2 into the last four bytes of a shelf.
pub fn put_charges(shelf: &mut [u8], charges: [usize; 2]) {
    let bytes = charges.map(|letters| u16::try_from(letters).expect("two bytes").to_be_bytes());
    shelf[SHELF_BYTES - 4..].copy_from_slice(&bytes.concat());
}

/// The most letters that a publisher may have in a round if the other publisher has these: 10,000 of its own, and what
/// the other leaves of the further 10,000. `None` if the other alone has more than a round allows.
pub fn most(other: usize) -> Option<usize> {
    20_000_usize.checked_sub(other.max(10_000) - 10_000).filter(|most| *most >= 10_000)
}

/// Charges of a publisher and of the other, with which a slip of at most 10,000 letters is admitted, or is not. Many
/// are at a limit. On a refusal some are charges that no history makes.
pub fn charges(random: &mut Random, letters: usize, admitted: bool) -> (usize, usize) {
    let any = random.within(0, 20_000);
    let other = random.pick(&[0, 9_999, 10_000, 10_001, 15_000, 19_999, 20_000, any]);
    let most = most(other).expect("at most 20,000");
    if admitted {
        let any = random.within(letters, most);
        let after = random.pick(&[most, most, most - 1, 10_000, any]).clamp(letters, most);
        return (after - letters, other);
    }
    if random.one_in(4) {
        let own = random.within(0, 65_535);
        return (random.pick(&[0, own]), random.pick(&[20_001, 65_535]));
    }
    let any = random.within(most + 1, 65_535 + letters);
    (random.pick(&[most + 1, most + 1, most + 2, 65_535 + letters, any]) - letters, other)
}

/// Lends the input's shelf to a call of the library. The bytes of the outcome are the shelf after the call.
pub fn lent(input: &Input, call: impl FnOnce(&mut Shelf) -> u8) -> Outcome {
    let mut shelf = Shelf { bytes: input.array(0) };
    let answer = call(&mut shelf);
    Outcome::of(answer).bytes(shelf.bytes.to_vec())
}

impl Maker {
    /// A shelf: empty, with some keys of either field and charges of a round, or with random bytes.
    pub fn shelf(&mut self) -> Vec<u8> {
        let mut shelf = vec![0; SHELF_BYTES];
        match self.random.below(4) {
            0 => {}
            1 => shelf = self.random.bytes(SHELF_BYTES),
            _ => {
                for _ in 0..self.random.within(1, 8) {
                    let (field, at) = (self.random.field(), place(&mut self.random));
                    put(&mut shelf, &at, &self.random.invertible_key(field), true);
                }
                let (own, other) = charges(&mut self.random, 0, true);
                put_charges(&mut shelf, [own, other]);
            }
        }
        shelf
    }
}
