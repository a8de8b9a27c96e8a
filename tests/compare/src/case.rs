//! Inputs, and the outcomes that the reference and the library give for them.

use reference::{desk, Field, Shelf};

use crate::operation::{parts, By, Facts, Op, Output, Over, Part};

/// The number of bytes before an output, and after it. They show whether a writer writes outside its output.
pub const GUARD: usize = 64;

/// The parts that an operation takes, as bytes.
pub type Parts = Vec<Vec<u8>>;

/// An operation and its input.
#[derive(Clone, PartialEq)]
pub struct Input {
    pub operation: Op,
    /// The field that the caller names. It is the smaller field if the operation takes none.
    pub named: Field,
    pub parts: Parts,
    /// The number of bytes of the output, or 0 without an output.
    pub room: usize,
    /// The bytes of the output before the call are made from this byte.
    pub fill: u8,
}

/// Everything that an operation returns, and everything that it may change.
#[derive(Clone, Debug, PartialEq, Eq)]
pub struct Outcome {
    pub answer: u8,
    /// The numbers that it returns besides the answer. The operation's facts name them.
    pub numbers: Vec<i64>,
    /// The other values that it returns; or, after the call, the lent pair, or the output with its guards.
    pub bytes: Vec<u8>,
}

impl Outcome {
    /// An outcome that is an answer alone.
    pub fn of(answer: u8) -> Outcome {
        Outcome { answer, numbers: Vec::new(), bytes: Vec::new() }
    }

    /// Adds a number.
    pub fn number(mut self, number: impl TryInto<i64>) -> Outcome {
        self.numbers.push(number.try_into().ok().expect("a number of 64 bits"));
        self
    }

    pub fn bytes(self, bytes: Vec<u8>) -> Outcome {
        Outcome { bytes, ..self }
    }
}

/// The outcome of a call's result: its answer, and the named members as numbers.
macro_rules! outcome {
    ($given:expr $(, $number:ident)*) => {{
        let given = $given;
        crate::case::Outcome::of(given.answer)$(.number(given.$number))*
    }};
}
pub(crate) use outcome;

/// The field of a key file, right or wrong. Its length decides. If no key has this length, its q decides.
pub fn field_of_key(file: &[u8]) -> Field {
    let by_length = Field::BOTH.into_iter().find(|field| field.key_bytes() == file.len());
    by_length.unwrap_or(desk::field_told(file))
}

/// The field whose digests are nearest in length.
fn field_of_digest(digest: &[u8]) -> Field {
    let apart = |field: &Field| field.digest_bytes().abs_diff(digest.len());
    Field::BOTH.into_iter().min_by_key(apart).expect("there are two")
}

impl Input {
    pub fn facts(&self) -> Facts {
        self.operation.facts()
    }

    /// The field that the operation works over: the field of the key, of the digest, or the one that is named.
    pub fn field(&self) -> Field {
        match self.facts().over {
            Over::Key => field_of_key(self.part(parts::KEY)),
            Over::Digest => field_of_digest(self.part(parts::DIGEST)),
            Over::Held => match self.shelf().held(self.size(1), self.size(2)) {
                Some(key) => field_of_key(&key),
                None => field_of_digest(self.part(parts::DIGEST)),
            },
            _ => self.named,
        }
    }

    /// A part that its operation takes.
    fn part(&self, part: Part) -> &[u8] {
        &self.parts[self.facts().place(part).expect("the operation takes it")]
    }

    /// The key shelf that is its first part.
    pub fn shelf(&self) -> Shelf {
        Shelf::of(&self.array(0))
    }

    /// A part of eight bytes as a number.
    pub fn size(&self, place: usize) -> usize {
        usize::from_be_bytes(self.array(place))
    }

    /// Is the larger field named?
    pub fn large(&self) -> bool {
        self.named == Field::Gf256
    }

    /// All parts. There must be `COUNT` of them.
    pub fn slices<const COUNT: usize>(&self) -> [&[u8]; COUNT] {
        let slices: Vec<&[u8]> = self.parts.iter().map(Vec::as_slice).collect();
        slices.try_into().expect("as many parts as the operation takes")
    }

    /// The part at a place, which has a fixed length. Makers and the shrinker keep this length.
    pub fn array<const COUNT: usize>(&self, place: usize) -> [u8; COUNT] {
        self.parts[place].as_slice().try_into().expect("a fixed part keeps its length")
    }

    /// The output with its guards before the call. It is empty without an output.
    pub fn lent(&self) -> Vec<u8> {
        let length = match self.facts().output {
            Output::Nothing => 0,
            _ => self.room + 2 * GUARD,
        };
        (0..length).map(|place| self.fill ^ (place as u8).wrapping_mul(167)).collect()
    }

    /// Lends the output to a call. The outcome's bytes are the output with its guards after the call.
    pub fn lending(&self, call: impl FnOnce(&mut [u8]) -> Outcome) -> Outcome {
        let mut bytes = self.lent();
        let outcome = call(&mut bytes[GUARD..GUARD + self.room]);
        outcome.bytes(bytes)
    }

    pub fn outcome(&self, by: By) -> Outcome {
        self.operation.call(by, self)
    }

    /// Do the library and the reference give different outcomes?
    pub fn differs(&self) -> bool {
        self.outcome(By::Reference) != self.outcome(By::Library)
    }
}
