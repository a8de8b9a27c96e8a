//! Prints inputs and outcomes.

use crate::case::{Input, Outcome, GUARD};
use crate::operation::{Output, Over};

/// Bytes in hexadecimal. Four or more equal bytes in a row are written as one byte and their number.
pub fn hex(bytes: &[u8]) -> String {
    let runs = bytes.chunk_by(|a, b| a == b).map(|run| match run.len() {
        length @ 4.. => format!("{:02X}*{length}", run[0]),
        length => vec![format!("{:02X}", run[0]); length].join(" "),
    });
    let text = runs.collect::<Vec<String>>().join(" ");
    if text.is_empty() {
        "-".to_string()
    } else {
        text
    }
}

/// Does the input's operation have an output?
fn has_output(input: &Input) -> bool {
    !matches!(input.facts().output, Output::Nothing)
}

/// The operation, the field if the caller names one, the parts, and the output. Each has its own line. Brackets hold
/// the number of bytes.
pub fn input(input: &Input) -> String {
    let facts = input.facts();
    let mut text = format!("walnut_{}\n", facts.name);
    if facts.over == Over::Named {
        text += &format!("  field of {}\n", input.named.size());
    }
    for (part, bytes) in facts.parts.iter().zip(&input.parts) {
        text += &format!("  {} [{}]: {}\n", part.name, bytes.len(), hex(bytes));
    }
    if has_output(input) {
        text += &format!("  output [{}]\n", input.room);
    }
    text
}

/// The answer and the other numbers.
pub fn outcome(input: &Input, outcome: &Outcome) -> String {
    let numbers = input.facts().numbers.iter().zip(&outcome.numbers);
    let beside: String = numbers.map(|(name, number)| format!(", {name} {number}")).collect();
    format!("answer {}{beside}", outcome.answer)
}

/// The name of a place in an outcome's bytes.
pub fn place_name(input: &Input, place: usize) -> String {
    match place {
        _ if !has_output(input) => format!("returned or lent byte {place}"),
        _ if place < GUARD => format!("byte {} before the output", GUARD - place),
        _ if place < GUARD + input.room => format!("output byte {}", place - GUARD),
        _ => format!("byte {} past the output", place - GUARD - input.room),
    }
}

/// The first byte in which the outcomes differ, and the number of bytes that differ.
pub fn difference(input: &Input, reference: &Outcome, library: &Outcome) -> Option<String> {
    let pairs = || reference.bytes.iter().zip(&library.bytes);
    let place = pairs().position(|(a, b)| a != b)?;
    let count = pairs().filter(|(a, b)| a != b).count();
    let name = place_name(input, place);
    let (left, right) = (reference.bytes[place], library.bytes[place]);
    Some(format!("{name}: reference {left:02X}, library {right:02X}; bytes that differ: {count}"))
}
