//! Makes the files and fixed arrays that several operations take, with chosen faults. Each function ignores the faults
//! of other parts, so that one list of faults serves all parts of an input.

use reference::bits;
use reference::key::layout;
use reference::testkit::Random;
use reference::word::{word_file, MOST_LETTERS};
use reference::{file_entries, Field, Matrix, Pair};

/// The first bit of N and the first bit of q in a key file.
const N: usize = 0;
const Q: usize = 8;

/// The places of the matrices without an inverse: the first matrix, the second, or both.
pub const SINGULAR: [&[usize]; 3] = [&[0], &[1], &[0, 1]];

/// A number that is no element of the smaller field.
pub fn too_high(random: &mut Random) -> u8 {
    let any = random.within(32, 255) as u8;
    random.pick(&[32, 33, 64, 255, any])
}

/// A byte that is no letter's code.
pub fn bad_code(random: &mut Random) -> u8 {
    let any = random.within(16, 255) as u8;
    random.pick(&[7, 15, 16, any])
}

/// Two different places from 0 to 7.
pub fn two_places(random: &mut Random) -> (usize, usize) {
    let places = random.shuffled([0, 1, 2, 3, 4, 5, 6, 7]);
    (places[0], places[1])
}

/// Writes a number of `width` bits into a string of bits.
fn put(bits: &mut [bool], at: usize, width: u32, number: u16) {
    let mut digits = Vec::new();
    bits::push(&mut digits, number, width);
    bits[at..at + digits.len()].copy_from_slice(&digits);
}

/// Adds 1 to 3 random bytes at the end, or removes 1 to 3 bytes there. The first `keep` bytes always stay.
pub fn change_length(random: &mut Random, file: &mut Vec<u8>, keep: usize) {
    let by = random.within(1, 3);
    if file.len() >= keep + by && random.one_in(2) {
        file.truncate(file.len() - by);
    } else {
        file.extend(random.bytes(by));
    }
}

/// Changes a list so that it does not hold each of 0 to 7 once.
pub fn spoil_labels(random: &mut Random, labels: &mut [u8; 8]) {
    let (from, to) = two_places(random);
    labels[to] = if random.one_in(3) { random.within(8, 255) as u8 } else { labels[from] };
}

/// A list as the key writer takes it. Fault: 6.
pub fn list(random: &mut Random, faults: &[u8]) -> Vec<u8> {
    let mut labels = random.labels();
    if faults.contains(&6) {
        spoil_labels(random, &mut labels);
    }
    labels.to_vec()
}

/// Changes the positions so that they are not those of the list. Either two positions are exchanged, or one is
/// replaced, or all are counted from 0, or they become the positions before a last letter b_i: positions i and i + 1
/// are exchanged.
pub fn spoil_positions(random: &mut Random, positions: &mut [u8; 8]) {
    let (one, other) = two_places(random);
    match random.below(4) {
        0 => positions.swap(one, other),
        1 => positions[one] = random.pick(&[0, positions[other], 9, 255]),
        2 => *positions = positions.map(|position| position - 1),
        _ => {
            let i = random.within(1, 7) as u8;
            *positions = positions.map(|at| {
                if at == i {
                    i + 1
                } else if at == i + 1 {
                    i
                } else {
                    at
                }
            });
        }
    }
}

/// Changes a pair so that its list does not hold each of 0 to 7 once, or so that its positions are not those of its
/// list.
pub fn spoil_lists(random: &mut Random, pair: &mut Pair) {
    match random.below(3) {
        0 => spoil_labels(random, &mut pair.labels),
        1 => {
            spoil_labels(random, &mut pair.labels);
            *pair = Pair::of(pair.matrix, pair.labels);
        }
        _ => spoil_positions(random, &mut pair.positions),
    }
}

/// Puts a zero at place 2 or 3 of the T-values, and a number that is too high at one of the places 4 to 7. Places count
/// from 0.
pub fn spoil_t_values(random: &mut Random, t_values: &mut [u8; 8], zero: bool, high: bool) {
    if zero {
        t_values[random.within(2, 3)] = 0;
    }
    if high {
        t_values[random.within(4, 7)] = too_high(random);
    }
}

/// The two matrices of a key. Both have an inverse. Fault: 26.
pub fn matrices(random: &mut Random, field: Field, faults: &[u8]) -> [Matrix; 2] {
    let mut matrices = [0; 2].map(|_| random.invertible_key_matrix(field));
    if faults.contains(&26) {
        for place in random.pick(&SINGULAR) {
            matrices[*place] = random.singular_key_matrix(field);
        }
    }
    matrices
}

/// The key file with one matrix replaced. Place 0 is the first matrix, place 1 the second. The new matrix need not have
/// an inverse.
pub fn with_matrix(field: Field, file: &[u8], place: usize, matrix: &Matrix) -> Vec<u8> {
    let mut bits = bits::of_bytes(file);
    put_matrix(&mut bits, field, place, matrix);
    bits::to_bytes(&bits)
}

/// Puts a matrix into the bits of a key file.
fn put_matrix(bits: &mut [bool], field: Field, place: usize, matrix: &Matrix) {
    let layout = layout(field);
    let at = [layout.first.start, layout.second.start][place];
    for (number, entry) in file_entries(matrix).into_iter().enumerate() {
        put(bits, at + layout.element * number, layout.element as u32, entry.into());
    }
}

/// The other field.
fn other(field: Field) -> Field {
    match field {
        Field::Gf32 => Field::Gf256,
        Field::Gf256 => Field::Gf32,
    }
}

/// A key file with faults, made from a key file without faults. Faults: 1 to 7, 26. For fault 3 the q changes, or the
/// length becomes that of the other field's keys.
pub fn key(random: &mut Random, field: Field, file: &[u8], faults: &[u8]) -> Vec<u8> {
    let mut bits = bits::of_bytes(file);
    let by_length = random.one_in(3);
    for fault in faults.iter().filter(|fault| **fault != 3 || !by_length) {
        spoil_key(random, &mut bits, field, *fault);
    }
    let mut file = bits::to_bytes(&bits);
    if faults.contains(&3) && by_length {
        with_length(random, &mut file, other(field).key_bytes());
    }
    if faults.contains(&1) {
        key_length(random, &mut file);
    }
    file
}

/// Gives a file this length: cuts its end, or adds random bytes there.
fn with_length(random: &mut Random, file: &mut Vec<u8>, length: usize) {
    let more = random.bytes(length.saturating_sub(file.len()));
    file.truncate(length);
    file.extend(more);
}

/// Gives a key file a length that no key has.
fn key_length(random: &mut Random, file: &mut Vec<u8>) {
    let by_few = [file.len() - 2, file.len() - 1, file.len() + 1, file.len() + 2];
    let any = random.within(0, 300);
    let length = random.pick(&[82, 84, 127, 129, 211, any, by_few[0], by_few[1], by_few[2], by_few[3]]);
    let is_free = Field::BOTH.iter().all(|field| field.key_bytes() != length);
    with_length(random, file, if is_free { length } else { length + 1 });
}

/// Puts one fault, 2 to 7 or 26, into the bits of a key file.
fn spoil_key(random: &mut Random, bits: &mut [bool], field: Field, fault: u8) {
    let layout = layout(field);
    let (t_values, width) = (layout.t_values.start, layout.element);
    match fault {
        2 => put(bits, N, 8, random.pick(&[0, 7, 9, 10, 255])),
        3 => {
            let others = [0, 31, 33, 255, 257, 288, 0x2000, 0xFFFF, other(field).size()];
            put(bits, Q, 16, random.pick(&others));
        }
        4 => put(bits, t_values + width * random.within(2, 7), width as u32, 0),
        5 => {
            let place = random.below(2);
            put(bits, t_values + width * place, width as u32, random.element_from(field, 2).into());
        }
        6 => {
            let (from, to) = two_places(random);
            let at = |place: usize| layout.labels.start + 3 * place;
            let label = bits::number(&bits[at(from)..at(from) + 3]);
            put(bits, at(to), 3, label);
        }
        7 => {
            let fillers: Vec<usize> =
                layout.first_filler.clone().chain(layout.second_filler.clone()).collect();
            bits[random.pick(&fillers)] = true;
        }
        26 => {
            for place in random.pick(&SINGULAR) {
                put_matrix(bits, field, *place, &random.singular_key_matrix(field));
            }
        }
        _ => {}
    }
}

/// A digest with the right length for a key over the field. Fault: 8. The fault changes the length by 1 to 3 bytes, or
/// to the length of the other field's digests.
pub fn digest(random: &mut Random, field: Field, digest: &[u8], faults: &[u8]) -> Vec<u8> {
    let mut file = digest.to_vec();
    match faults.contains(&8) {
        true if random.one_in(2) => with_length(random, &mut file, other(field).digest_bytes()),
        true => change_length(random, &mut file, 0),
        false => {}
    }
    file
}

/// The letters of a word with these faults. For 12 one code is no letter. For 13 the number of letters is odd. For 10
/// there are too many letters in one of eight cases.
fn spoiled_letters(random: &mut Random, codes: &[u8], faults: &[u8]) -> Vec<u8> {
    let mut codes = codes.to_vec();
    if faults.contains(&10) && random.one_in(8) {
        codes.resize(MOST_LETTERS + random.within(1, 4), random.letter());
    }
    if faults.contains(&12) {
        codes.resize(codes.len().max(1), 0);
    }
    if codes.len().is_multiple_of(2) && faults.contains(&13) {
        let odd = if codes.is_empty() { 1 } else { codes.len() - 1 };
        codes.resize(odd, random.letter());
    }
    if faults.contains(&12) {
        let place = random.below(codes.len() as u64);
        codes[place] = random.pick(&[7, 15]);
    }
    codes
}

/// A word file. Faults: 9 to 13.
pub fn word(random: &mut Random, codes: &[u8], faults: &[u8]) -> Vec<u8> {
    let codes = spoiled_letters(random, codes, faults);
    let mut file = word_file(&codes);
    if faults.contains(&13) {
        *file.last_mut().expect("an odd word has letters") |= random.within(1, 15) as u8;
    }
    if faults.contains(&10) && codes.len() <= MOST_LETTERS {
        let any = random.within(MOST_LETTERS + 1, 0xFFFF) as u16;
        let number = random.pick(&[10_001, 0xFFFF, any]);
        file[..2].copy_from_slice(&number.to_be_bytes());
    }
    if faults.contains(&11) {
        change_length(random, &mut file, 2);
    }
    if faults.contains(&9) {
        file.truncate(random.below(2));
    }
    file
}

/// Changes, removes or inserts one byte. If the length is fixed, only changes a byte. Exception: some calls change
/// nothing.
pub fn damage(random: &mut Random, bytes: &mut Vec<u8>, fixed: bool) {
    let place = random.below(bytes.len() as u64 + 1);
    match random.below(4) {
        0 if !fixed => bytes.insert(place, random.byte()),
        1 if !fixed && place < bytes.len() => {
            bytes.remove(place);
        }
        2 if place < bytes.len() => bytes[place] = random.byte(),
        _ if place < bytes.len() => bytes[place] ^= 1 << random.below(8),
        _ => {}
    }
}
