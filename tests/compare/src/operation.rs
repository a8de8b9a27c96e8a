//! What each exported operation must provide for the comparison. Each operation has a file in `operations/`.

use reference::word::MOST_BYTES;
use reference::Field;

use crate::case::{Input, Outcome, Parts};
use crate::fixed::Fixed;
use crate::make::{Maker, Size};
use crate::plan::{Checked, Run};
use crate::shrink::Shrinker;

/// The names that the files in `operations/` use.
pub mod prelude {
    pub use reference::Field;

    pub use super::{parts, By, Facts, Form, Operation, Output, Over, Part, WORDS};
    pub(crate) use crate::case::outcome;
    pub use crate::case::{Input, Outcome, Parts};
    pub use crate::exported::*;
    pub use crate::fixed::{
        entries, hex, identity, keys, sevens, with_row, zeros_reach, Fixed, LIST, LISTS, SEVEN, TURNED_LISTS,
        T_VALUES,
    };
    pub use crate::make::{files, Maker, Size};
    pub use crate::plan::{Checked, Run};
    pub use crate::shrink::Shrinker;
}

/// The two implementations that are compared.
#[derive(Clone, Copy)]
pub enum By {
    Library,
    Reference,
}

/// An operation of the exported interface.
pub trait Operation: Sync {
    fn facts(&self) -> Facts;

    /// Parts with these faults, and with no other faults that change the answer. `None` if no input can have these
    /// faults together. A fault is the number of a question whose answer is no. The caller gives only faults that an
    /// input over the field can have.
    fn make(&self, maker: &mut Maker, field: Field, faults: &[u8], size: Size) -> Option<Parts>;

    /// Parts that may be right or wrong, for an operation whose damaged inputs are usually refused by early questions.
    fn rough(&self, _maker: &mut Maker) -> Option<Parts> {
        None
    }

    /// The outcome that the library or the reference gives for an input.
    ///
    /// SAFETY of the calls to the library: each pointer comes from a reference or a slice that lives until the call
    /// returns. Each pointer of a slice is passed with the slice's own length. Memory that the call writes is borrowed
    /// mutably. The exported functions accept any bytes.
    fn call(&self, by: By, input: &Input) -> Outcome;

    /// The bytes of an outcome on a refusal: the output unchanged, or nothing without an output.
    fn refused(&self, input: &Input) -> Vec<u8> {
        input.lent()
    }

    /// Inputs with a typed outcome. The first input has different values in all arguments and results, so that it shows
    /// if two of them are exchanged.
    fn fixed(&self) -> Vec<Fixed>;

    /// Compares all small inputs.
    fn small(&self, _run: &mut Run) -> Checked {
        Ok(())
    }

    /// Makes parts of a failing input smaller together, where one part alone cannot shrink.
    fn shrunk(&self, _shrinker: &Shrinker, input: Input) -> Input {
        input
    }
}

/// An operation, as lists and inputs hold it.
pub type Op = &'static dyn Operation;

/// What is known of an operation without calling it.
#[derive(Clone, Copy)]
pub struct Facts {
    /// The function's name, without the prefix `walnut_`.
    pub name: &'static str,
    /// The numbers of its questions, in the papers' order. Its answers are these numbers and 0.
    pub questions: &'static [u8],
    /// The parts that it takes, in the order of the function's arguments, without the field and the output.
    pub parts: &'static [Part],
    pub over: Over,
    pub output: Output,
    /// The names of the numbers that it returns besides its answer.
    pub numbers: &'static [&'static str],
    /// Values that the first of these numbers must take. Each value must occur in some accepted case.
    pub reached: &'static [i64],
    /// Faults that take long to make. Random cases seldom have them.
    pub slow: &'static [u8],
    /// How often random cases choose it, relative to the other operations.
    pub share: usize,
}

/// Where an operation's field comes from.
#[derive(Clone, Copy, PartialEq, Eq)]
pub enum Over {
    /// The operation works over no field. It is counted with the smaller field.
    Nothing,
    /// The caller names the field.
    Named,
    /// The length of the key decides.
    Key,
    /// The length of the digest decides.
    Digest,
    /// The key that the shelf holds decides. Without a key the digest decides.
    Held,
}

/// The output that an operation is lent.
#[derive(Clone, Copy)]
pub enum Output {
    Nothing,
    Fixed(usize),
    /// The fewest bytes that the operation accepts over a field, and its answer if there are fewer.
    Least(fn(Field) -> usize, u8),
}

/// The output of a writer of words.
pub const WORDS: Output = Output::Least(|_| MOST_BYTES, 15);

/// A part that an operation takes: its name and its form.
#[derive(Clone, Copy, Debug, PartialEq, Eq)]
pub struct Part {
    pub name: &'static str,
    pub form: Form,
}

/// The form of a part: a fixed number of bytes, any number of bytes, a word file, or a move list.
#[derive(Clone, Copy, Debug, PartialEq, Eq)]
pub enum Form {
    Fixed(usize),
    Bytes,
    Word,
    Moves,
}

/// Parts that several operations take.
pub mod parts {
    use super::{Form, Part};
    use reference::key::PACKED_ENTRIES;
    use reference::shelf::SHELF_BYTES;

    /// A key shelf, a publisher and a key number. Numbers have eight bytes, high first, so that every `size_t` can be
    /// written.
    pub const SHELF: Part = Part { name: "shelf", form: Form::Fixed(SHELF_BYTES) };
    pub const PUBLISHER: Part = Part { name: "publisher", form: Form::Fixed(8) };
    pub const NUMBER: Part = Part { name: "key number", form: Form::Fixed(8) };
    pub const KEY: Part = Part { name: "key", form: Form::Bytes };
    pub const DIGEST: Part = Part { name: "digest", form: Form::Bytes };
    pub const WORD: Part = Part { name: "word", form: Form::Word };
    pub const MATRIX: Part = Part { name: "matrix", form: Form::Fixed(64) };
    pub const LABELS: Part = Part { name: "labels", form: Form::Fixed(8) };
    /// The two lists of a pair.
    pub const LISTS: Part = Part { name: "labels, then positions", form: Form::Fixed(16) };
    pub const T_VALUES: Part = Part { name: "T-values", form: Form::Fixed(8) };
    pub const FIRST: Part = Part { name: "first matrix", form: Form::Fixed(PACKED_ENTRIES) };
    pub const SECOND: Part = Part { name: "second matrix", form: Form::Fixed(PACKED_ENTRIES) };
}

impl Facts {
    /// The facts that every operation must state. The other facts are those of an operation that takes no field and no
    /// output, and returns only its answer.
    pub const fn of(name: &'static str, questions: &'static [u8], parts: &'static [Part]) -> Facts {
        let (over, output) = (Over::Nothing, Output::Nothing);
        Facts { name, questions, parts, over, output, numbers: &[], reached: &[], slow: &[], share: 5 }
    }

    /// The fields that it works over.
    pub fn fields(&self) -> &'static [Field] {
        match self.over {
            Over::Nothing => &Field::BOTH[..1],
            _ => &Field::BOTH,
        }
    }

    /// The questions that an input over a field can fail. Over the larger field no input fails 7 or 17: a key has no
    /// filler, and every byte is an element.
    pub fn questions_over(&self, field: Field) -> Vec<u8> {
        let mut questions = self.questions.to_vec();
        if field == Field::Gf256 {
            questions.retain(|number| *number != 7 && *number != 17);
        }
        questions
    }

    /// The answer to an input with these faults: the first of the questions that is among the faults, or 0.
    pub fn answer_to(&self, faults: &[u8]) -> u8 {
        self.questions.iter().copied().find(|number| faults.contains(number)).unwrap_or(0)
    }

    /// The fewest bytes that it accepts as an output over a field. `None` if it does not ask for a size.
    pub fn least_room(&self, field: Field) -> Option<usize> {
        match self.output {
            Output::Least(least, _) => Some(least(field)),
            _ => None,
        }
    }

    /// The place of a part among its parts, or `None` if it does not take this part.
    pub fn place(&self, part: Part) -> Option<usize> {
        self.parts.iter().position(|other| *other == part)
    }

    /// Its name with the field's size in brackets. An operation without a field has its name alone.
    pub fn name_over(&self, field: Field) -> String {
        match self.fields() {
            [_] => self.name.to_string(),
            _ => format!("{} ({})", self.name, field.size()),
        }
    }
}

impl PartialEq for dyn Operation {
    fn eq(&self, other: &dyn Operation) -> bool {
        self.facts().name == other.facts().name
    }
}
