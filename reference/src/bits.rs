//! Strings of bits, most significant first (document 01, "Files"; source 000, section 10).

/// The bits of the bytes, in order.
pub fn of_bytes(bytes: &[u8]) -> Vec<bool> {
    let mut bits = Vec::new();
    for byte in bytes {
        push(&mut bits, (*byte).into(), 8);
    }
    bits
}

/// Packs the bits into bytes, eight to a byte. The number of bits must be a multiple of eight.
pub fn to_bytes(bits: &[bool]) -> Vec<u8> {
    numbers(bits, 8)
}

/// Appends the low `width` bits of a number.
pub fn push(bits: &mut Vec<bool>, number: u16, width: u32) {
    bits.extend((0..width).rev().map(|place| number >> place & 1 == 1));
}

/// The number that the bits spell. There are at most sixteen bits.
pub fn number(bits: &[bool]) -> u16 {
    bits.iter().fold(0, |number, bit| number << 1 | u16::from(*bit))
}

/// The numbers that the bits spell, `width` bits each. The width is at most eight. Bits left over at the end are
/// dropped.
pub fn numbers(bits: &[bool], width: usize) -> Vec<u8> {
    bits.chunks_exact(width).map(|group| number(group) as u8).collect()
}
