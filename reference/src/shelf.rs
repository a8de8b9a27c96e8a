//! The key shelf of two publishers (document 02, section 8), and their letters on the checking chip (section 14).
//!
//! A shelf is a map from publisher and key number to a slot, and a map from publisher to the letters charged in this
//! round. Answer 30 means that a map has no such entry. The bytes of a shelf are its slots in order, and then the
//! charges in order.

use std::collections::BTreeMap;

use crate::key::key_answer;
use crate::verdict::verify;
use crate::word::read_word;

/// The bytes of a slot: one for the length of a key file, and 128 for the longest key file.
const SLOT: usize = 1 + 128;

/// The bytes of a shelf: two publishers with four slots each, and two charges of two bytes each.
pub const SHELF_BYTES: usize = 8 * SLOT + 4;

/// The letters that each publisher is sure of in a round.
const SURE: usize = 10_000;

/// The further letters of a round, which the two publishers share.
const SHARED: usize = 10_000;

/// A slot of a shelf: the byte with the key file's length, and the 128 bytes after it.
#[derive(Clone, Debug, PartialEq, Eq)]
struct Slot {
    length: u8,
    rest: Vec<u8>,
}

impl Slot {
    /// The slot that holds a key file, with zeros after the file. An empty file gives a slot of zeros, which holds no
    /// key.
    fn of(file: &[u8]) -> Slot {
        let mut rest = file.to_vec();
        rest.resize(SLOT - 1, 0);
        Slot { length: file.len() as u8, rest }
    }

    /// The key file in the slot: its first `length` bytes. A length over 128 counts as 128.
    fn file(&self) -> Vec<u8> {
        self.rest.iter().copied().take(self.length.into()).collect()
    }
}

/// The letters charged to each publisher.
type Charges = BTreeMap<usize, usize>;

/// The sum of the amounts by which each publisher is over its sure letters.
fn over(charges: &Charges) -> usize {
    charges.values().filter(|letters| **letters > SURE).map(|letters| letters - SURE).sum()
}

/// A shelf: the slots by publisher and key number, and the charges by publisher.
#[derive(Clone, Debug, PartialEq, Eq)]
pub struct Shelf {
    slots: BTreeMap<(usize, usize), Slot>,
    charged: Charges,
}

impl Shelf {
    /// The shelf of these bytes.
    pub fn of(bytes: &[u8; SHELF_BYTES]) -> Shelf {
        let (slots, charges) = bytes.split_at(8 * SLOT);
        let places = [1, 2].into_iter().flat_map(|publisher| (0..=3).map(move |number| (publisher, number)));
        let slots = slots.chunks(SLOT).map(|slot| Slot { length: slot[0], rest: slot[1..].to_vec() });
        let charges = charges.chunks(2).map(|two| 256 * usize::from(two[0]) + usize::from(two[1]));
        Shelf { slots: places.zip(slots).collect(), charged: [1, 2].into_iter().zip(charges).collect() }
    }

    /// The shelf that holds no key, and has charged no letters.
    pub fn empty() -> Shelf {
        Shelf::of(&[0; SHELF_BYTES])
    }

    pub fn bytes(&self) -> Vec<u8> {
        let slots = self.slots.values().flat_map(|slot| [&[slot.length][..], &slot.rest].concat());
        let charges =
            self.charged.values().flat_map(|letters| [(letters / 256) as u8, (letters % 256) as u8]);
        slots.chain(charges).collect()
    }

    /// The key file under a publisher's key number, if there is one.
    pub fn held(&self, publisher: usize, number: usize) -> Option<Vec<u8>> {
        let file = self.slots.get(&(publisher, number))?.file();
        Some(file).filter(|file| !file.is_empty())
    }

    /// The letters charged to publisher 1 and to publisher 2 in this round.
    pub fn charged(&self) -> [usize; 2] {
        [1, 2].map(|publisher| self.charged[&publisher])
    }

    /// Loads a key under a key number, and replaces the key that was there. On a refusal the shelf stays as it is.
    /// Answers: 30, then the key's 1 to 7 and 26.
    pub fn load(&mut self, publisher: usize, number: usize, key: &[u8]) -> u8 {
        let Some(slot) = self.slots.get_mut(&(publisher, number)) else { return 30 };
        let answer = key_answer(key);
        if answer == 0 {
            *slot = Slot::of(key);
        }
        answer
    }

    /// Removes the key under a key number. Answers: 30.
    pub fn clear(&mut self, publisher: usize, number: usize) -> u8 {
        let Some(slot) = self.slots.get_mut(&(publisher, number)) else { return 30 };
        *slot = Slot::of(&[]);
        0
    }

    /// Judges a slip by the key under a key number, and charges its letters to the publisher. Answers: 30, 31 if there
    /// is no key, those of the verdict before 14, 36 if the slip is not admitted, then 14. The shelf changes on 0 and
    /// on 14 alone.
    ///
    /// The verdict is found first. It is given only if the slip is admitted.
    pub fn judge(&mut self, publisher: usize, number: usize, digest: &[u8], word: &[u8]) -> u8 {
        if !self.slots.contains_key(&(publisher, number)) {
            return 30;
        }
        let Some(key) = self.held(publisher, number) else { return 31 };
        let verdict = verify(&key, digest, word);
        if ![0, 14].contains(&verdict) {
            return verdict;
        }
        let mut after = self.charged.clone();
        *after.entry(publisher).or_default() += read_word(word).letters;
        if over(&after) > SHARED {
            return 36;
        }
        self.charged = after;
        verdict
    }

    /// Starts a new round: no letters are charged to either publisher. Answers: 30.
    pub fn round(&mut self, publisher: usize) -> u8 {
        if !self.charged.contains_key(&publisher) {
            return 30;
        }
        self.charged.values_mut().for_each(|letters| *letters = 0);
        0
    }
}
