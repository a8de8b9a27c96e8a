//! The two fields: of 32 elements (document 01, "The field"; source 000, section 11.1) and of 256 (document 02,
//! section 7).
//!
//! An element is a number, and its bits are the coefficients of a polynomial over two elements. A sum is an exclusive
//! or, and a minus sign changes nothing. A product is the product of the two polynomials, divided by the field's own
//! polynomial: the remainder is the product in the field.

use crate::questions::{first_no, Question};

/// One of the two fields. Everything that differs between strengths 128 and 256 follows from the field.
#[derive(Clone, Copy, Debug, PartialEq, Eq, PartialOrd, Ord)]
pub enum Field {
    /// 32 elements: strength 128.
    Gf32,
    /// 256 elements: strength 256.
    Gf256,
}

/// The answer, and an element of a field. On a refusal the element is 0.
#[derive(Clone, Copy, Debug, PartialEq, Eq)]
pub struct Element {
    pub answer: u8,
    pub value: u8,
}

/// The number of bits of a polynomial up to its highest term: its degree plus one, 0 for zero.
fn bit_length(polynomial: u16) -> u32 {
    u16::BITS - polynomial.leading_zeros()
}

/// The product of two polynomials: the sum of a shifted copy of the first for every term of the second. The second has
/// at most eight bits, and the product at most sixteen.
fn polynomial_product(left: u16, right: u16) -> u16 {
    (0..8).filter(|term| right >> term & 1 == 1).fold(0, |sum, term| sum ^ left << term)
}

/// Long division of polynomials: quotient and remainder. The divisor must not be zero.
fn long_division(dividend: u16, divisor: u16) -> (u16, u16) {
    let (mut quotient, mut rest) = (0, dividend);
    while bit_length(rest) >= bit_length(divisor) {
        let shift = bit_length(rest) - bit_length(divisor);
        quotient |= 1 << shift;
        rest ^= divisor << shift;
    }
    (quotient, rest)
}

impl Field {
    pub const BOTH: [Field; 2] = [Field::Gf32, Field::Gf256];

    /// The field's polynomial: x^5 + x^2 + 1, or x^8 + x^4 + x^3 + x^2 + 1.
    fn modulus(self) -> u16 {
        match self {
            Field::Gf32 => 0b10_0101,
            Field::Gf256 => 0b1_0001_1101,
        }
    }

    /// q, the number of elements.
    pub fn size(self) -> u16 {
        match self {
            Field::Gf32 => 32,
            Field::Gf256 => 256,
        }
    }

    /// The number of bytes of a key file over the field.
    pub fn key_bytes(self) -> usize {
        match self {
            Field::Gf32 => 83,
            Field::Gf256 => 128,
        }
    }

    /// The number of bytes of a digest that goes with a key over the field.
    pub fn digest_bytes(self) -> usize {
        match self {
            Field::Gf32 => 32,
            Field::Gf256 => 64,
        }
    }

    /// Is the number an element, that is, below q? (Question 17.)
    pub fn has(self, number: u8) -> bool {
        u16::from(number) < self.size()
    }

    /// The remainder of a polynomial after division by the field's polynomial.
    fn reduced(self, polynomial: u16) -> u8 {
        let (_, rest) = long_division(polynomial, self.modulus());
        rest as u8
    }

    /// The product of two elements.
    pub fn times(self, left: u8, right: u8) -> u8 {
        self.reduced(polynomial_product(left.into(), right.into()))
    }

    /// The reciprocal of an element other than zero, by Euclid's algorithm on the field's polynomial and the element.
    /// The only common divisor of the two is 1. Each `(rest, factor)` satisfies rest = factor × element, up to a
    /// multiple of the field's polynomial.
    pub fn inverse(self, element: u8) -> u8 {
        let mut before = (self.modulus(), 0);
        let mut now = (u16::from(element), 1);
        while now.0 != 0 {
            let (quotient, rest) = long_division(before.0, now.0);
            let factor = before.1 ^ polynomial_product(quotient, now.1);
            (before, now) = (now, (rest, factor));
        }
        self.reduced(before.1)
    }
}

/// The input of the questions that `product` and `reciprocal` ask.
struct Operands {
    field: Field,
    numbers: Vec<u8>,
}

/// Are all operands elements of the field?
const ELEMENTS: Question<Operands> = (17, |of| of.numbers.iter().all(|number| of.field.has(*number)));

/// Are all operands other than zero?
const NOT_ZERO: Question<Operands> = (4, |of| !of.numbers.contains(&0));

/// The product of two numbers that need not be elements. Answer: 17.
pub fn product(field: Field, left: u8, right: u8) -> Element {
    match first_no(&[ELEMENTS], &Operands { field, numbers: vec![left, right] }) {
        0 => Element { answer: 0, value: field.times(left, right) },
        answer => Element { answer, value: 0 },
    }
}

/// The reciprocal of a number that need not be an element. Answers: 17, then 4 for zero.
pub fn reciprocal(field: Field, element: u8) -> Element {
    match first_no(&[ELEMENTS, NOT_ZERO], &Operands { field, numbers: vec![element] }) {
        0 => Element { answer: 0, value: field.inverse(element) },
        answer => Element { answer, value: 0 },
    }
}
