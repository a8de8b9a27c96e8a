//! Pseudorandom numbers from a seed, and test inputs made from these numbers.

use crate::field::Field;
use crate::pair::{Labels, Pair, TValues};
use crate::STRANDS;

/// Marsaglia's xorshift with 64 bits. The state is never 0.
#[derive(Clone, Debug)]
pub struct Random(pub u64);

impl Random {
    /// A generator for any seed, including 0. The first state mixes the bits of the seed and is not 0.
    pub fn seeded(seed: u64) -> Random {
        let mixed = (seed ^ 0x9E37_79B9_7F4A_7C15).wrapping_mul(0xBF58_476D_1CE4_E5B9);
        let mut random = Random((mixed ^ mixed >> 31) | 1);
        random.step();
        random
    }

    /// Goes to the next state and returns it.
    fn step(&mut self) -> u64 {
        self.0 ^= self.0 << 13;
        self.0 ^= self.0 >> 7;
        self.0 ^= self.0 << 17;
        self.0
    }

    /// A number below the bound.
    pub fn below(&mut self, bound: u64) -> usize {
        ((self.step() >> 16) % bound) as usize
    }

    /// A number from `least` to `most`, both included.
    pub fn within(&mut self, least: usize, most: usize) -> usize {
        least + self.below((most - least) as u64 + 1)
    }

    /// True with probability 1 in `times`.
    pub fn one_in(&mut self, times: u64) -> bool {
        self.below(times) == 0
    }

    /// A random entry of `among`.
    pub fn pick<T: Copy>(&mut self, among: &[T]) -> T {
        among[self.below(among.len() as u64)]
    }

    /// The entries of `things` in a random order.
    pub fn shuffled<T, const COUNT: usize>(&mut self, mut things: [T; COUNT]) -> [T; COUNT] {
        for i in (1..COUNT).rev() {
            things.swap(i, self.within(0, i));
        }
        things
    }

    /// A random byte.
    pub fn byte(&mut self) -> u8 {
        self.below(256) as u8
    }

    /// A list of `count` random bytes.
    pub fn bytes(&mut self, count: usize) -> Vec<u8> {
        (0..count).map(|_| self.byte()).collect()
    }

    /// The code of a random letter.
    pub fn letter(&mut self) -> u8 {
        let generator = self.below(7) as u8;
        generator + 8 * self.below(2) as u8
    }

    /// The codes of `letters` random letters.
    pub fn word(&mut self, letters: usize) -> Vec<u8> {
        (0..letters).map(|_| self.letter()).collect()
    }

    /// A piece of a word. Either a move fits it: it is a letter and its inverse, letters that swap, or letters that
    /// turn. Or it is one letter alone.
    fn piece(&mut self) -> Vec<u8> {
        let (low, sign) = (self.below(6) as u8, 8 * self.below(2) as u8);
        let letter = self.letter();
        match self.below(5) {
            0 => vec![letter, letter ^ 8],
            1 => self.far_letters(),
            2 => vec![sign + low, sign + low + 1, sign + low],
            3 => vec![sign + low + 1, sign + low, sign + low + 1],
            _ => vec![letter],
        }
    }

    /// Two letters whose generators differ by at least 2, in any order and with any signs.
    fn far_letters(&mut self) -> Vec<u8> {
        let low = self.below(5) as u8;
        let high = self.within(low.into(), 4) as u8 + 2;
        let letters = [low + 8 * self.below(2) as u8, high + 8 * self.below(2) as u8];
        self.shuffled(letters).to_vec()
    }

    /// A word of `letters` letters in which each kind of move is possible at many places.
    pub fn tangled_word(&mut self, letters: usize) -> Vec<u8> {
        let mut word = Vec::new();
        while word.len() < letters {
            word.extend(self.piece());
        }
        word.truncate(letters);
        word
    }

    /// One of the two fields.
    pub fn field(&mut self) -> Field {
        self.pick(&Field::BOTH)
    }

    /// A random field element.
    pub fn element(&mut self, field: Field) -> u8 {
        self.below(field.size().into()) as u8
    }

    /// A random field element that is at least `least`.
    pub fn element_from(&mut self, field: Field, least: u8) -> u8 {
        self.within(least.into(), usize::from(field.size()) - 1) as u8
    }

    /// `COUNT` random field elements.
    pub fn elements<const COUNT: usize>(&mut self, field: Field) -> [u8; COUNT] {
        [0; COUNT].map(|_| self.element(field))
    }

    /// Eight random field elements other than zero.
    pub fn t_values(&mut self, field: Field) -> TValues {
        [0; STRANDS].map(|_| self.element_from(field, 1))
    }

    /// The T-values of a key: eight elements other than zero. The first two are 1.
    pub fn key_t_values(&mut self, field: Field) -> TValues {
        let mut t_values = self.t_values(field);
        t_values[..2].fill(1);
        t_values
    }

    /// The list 0 to 7 in a random order.
    pub fn labels(&mut self) -> Labels {
        self.shuffled([0, 1, 2, 3, 4, 5, 6, 7])
    }

    /// A random pair. Its matrix need not have an inverse.
    pub fn pair(&mut self, field: Field) -> Pair {
        Pair::of(self.elements(field), self.labels())
    }

    /// A random digest of the length that keys over the field need.
    pub fn digest(&mut self, field: Field) -> Vec<u8> {
        self.bytes(field.digest_bytes())
    }
}
