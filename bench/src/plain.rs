//! The library's operations in plain Rust, as one would write them by hand. The benchmark compares the library's times
//! with theirs.

use std::hint::black_box;
use std::sync::OnceLock;

use reference::dialect::{relation, RELATIONS};
use reference::letter::codes_of;

const WORD_BYTES: usize = 5002;
const LETTERS: usize = 10_000;
const STORED_BYTES: usize = 5006;

type Matrix = [[u8; 8]; 8];
type Eight = [u8; 8];

/// The products and reciprocals of a field with `SIZE` elements.
struct Table<const SIZE: usize> {
    products: [[u8; SIZE]; SIZE],
    reciprocals: [u8; SIZE],
}

impl<const SIZE: usize> Table<SIZE> {
    /// The bits of an entry.
    const BITS: usize = SIZE.ilog2() as usize;

    /// The tables of the field of a polynomial. a × b follows from a × (b / 2).
    const fn new(polynomial: usize) -> Table<SIZE> {
        let mut table = Table { products: [[0; SIZE]; SIZE], reciprocals: [0; SIZE] };
        let mut place = 0;
        while place < SIZE * SIZE {
            let (a, b) = (place / SIZE, place % SIZE);
            let doubled = 2 * table.products[a][b / 2] as usize;
            let half = if doubled < SIZE { doubled } else { doubled ^ polynomial };
            let product = if b % 2 == 0 { half } else { half ^ a };
            table.products[a][b] = product as u8;
            if product == 1 {
                table.reciprocals[a] = b as u8;
            }
            place += 1;
        }
        table
    }

    /// The products of an element with all elements.
    fn row(&self, element: u8) -> &[u8; SIZE] {
        &self.products[usize::from(element)]
    }

    fn reciprocal(&self, element: u8) -> u8 {
        self.reciprocals[usize::from(element)]
    }
}

static SMALL: Table<32> = Table::new(0x25);
static LARGE: Table<256> = Table::new(0x11D);

#[derive(Clone, PartialEq)]
struct Pair {
    matrix: Matrix,
    labels: Eight,
}

impl Pair {
    fn with_labels(labels: Eight) -> Pair {
        let mut matrix = [[0; 8]; 8];
        for (place, row) in matrix.iter_mut().enumerate() {
            row[place] = 1;
        }
        Pair { matrix, labels }
    }

    /// Multiplies a letter into the pair. For each label, `values` has the products of its T-value, and `inverses` has
    /// the products of the reciprocal.
    fn letter<const SIZE: usize>(&mut self, values: &Rows<SIZE>, inverses: &Rows<SIZE>, code: u8) {
        let (g, inverse) = (usize::from(code & 7), code & 8 != 0);
        let times = if inverse {
            inverses[usize::from(self.labels[g + 1])]
        } else {
            values[usize::from(self.labels[g])]
        };
        for row in &mut self.matrix {
            let own = row[g];
            let product = times[usize::from(own)];
            let (before, after) = if inverse { (own, product) } else { (product, own) };
            if g > 0 {
                row[g - 1] ^= before;
            }
            row[g] = product;
            row[g + 1] ^= after;
        }
        self.labels.swap(g, g + 1);
    }

    fn carried<const SIZE: usize>(
        mut self,
        table: &Table<SIZE>,
        t_values: &Eight,
        codes: impl Iterator<Item = u8>,
    ) -> Pair {
        let values = t_values.map(|value| table.row(value));
        let inverses = t_values.map(|value| table.row(table.reciprocal(value)));
        codes.for_each(|code| self.letter(&values, &inverses, code));
        self
    }
}

/// A row of the table of products for each label.
type Rows<'a, const SIZE: usize> = [&'a [u8; SIZE]; 8];

/// Does `positions` have the position of each label, counted from 1? If so, the labels are 0 to 7, each once.
fn are_inverse(labels: &[u8], positions: &[u8]) -> bool {
    let position = |label: &u8| positions.get(usize::from(*label)).copied();
    labels.iter().zip(1..).all(|(label, place)| position(label) == Some(place))
}

/// Multiplies a letter into a lent pair, with the multiplier's questions over the smaller field. The pair is its
/// matrix, row by row, then its labels and their positions.
pub fn multiply(lent: &mut [u8; 80], t_values: &Eight, letter: u8) -> Result<(), u8> {
    let (entries, lists) = lent.split_at(64);
    let (labels, positions) = lists.split_at(8);
    if t_values.iter().chain(entries).any(|number| *number > 31) {
        return Err(17);
    }
    if t_values.contains(&0) {
        return Err(4);
    }
    if !are_inverse(labels, positions) {
        return Err(6);
    }
    if letter > 15 || letter & 7 == 7 {
        return Err(12);
    }
    let rows = std::array::from_fn(|row| std::array::from_fn(|column| entries[8 * row + column]));
    let mut pair = Pair { matrix: rows, labels: std::array::from_fn(|place| labels[place]) };
    let values = t_values.map(|value| SMALL.row(value));
    let inverses = t_values.map(|value| SMALL.row(SMALL.reciprocal(value)));
    pair.letter(&values, &inverses, letter);
    lent[..64].copy_from_slice(pair.matrix.as_flattened());
    lent[64..72].copy_from_slice(&pair.labels);
    let place = usize::from(letter & 7);
    for (label, position) in pair.labels[place..place + 2].iter().zip((letter & 7) + 1..) {
        lent[72 + usize::from(*label)] = position;
    }
    Ok(())
}

struct Key {
    t_values: Eight,
    pair: Pair,
    second: Matrix,
}

/// The eight numbers in a group of bytes. A number has as many bits as the group has bytes.
fn eight(bytes: &[u8]) -> Eight {
    let bits = bytes.len();
    let value = bytes.iter().fold(0, |value, byte| value << 8 | u64::from(*byte));
    std::array::from_fn(|place| (value >> ((7 - place) * bits) & ((1 << bits) - 1)) as u8)
}

fn matrix(bytes: &[u8], bits: usize) -> Matrix {
    let mut matrix = [[0; 8]; 8];
    for (row, group) in matrix.iter_mut().zip(bytes.chunks_exact(bits).take(7)) {
        *row = eight(group);
    }
    matrix[7][7] = bytes[7 * bits] >> (8 - bits);
    matrix
}

fn is_order(labels: &[u8]) -> bool {
    (0..8).all(|label| labels.contains(&label))
}

/// Does the matrix have an inverse? Uses elimination, column by column.
fn is_invertible<const SIZE: usize>(table: &Table<SIZE>, mut matrix: Matrix) -> bool {
    for column in 0..8 {
        let Some(pivot) = (column..8).find(|row| matrix[*row][column] != 0) else { return false };
        matrix.swap(column, pivot);
        let pivot = matrix[column];
        let scale = table.row(table.reciprocal(pivot[column]));
        for row in &mut matrix[column + 1..] {
            let factor = table.row(scale[usize::from(row[column])]);
            for place in column + 1..8 {
                row[place] ^= factor[usize::from(pivot[place])];
            }
        }
    }
    true
}

/// Reads a key whose length is that of a key over the field.
fn read_key<const SIZE: usize>(table: &Table<SIZE>, file: &[u8]) -> Result<Key, u8> {
    let bits = Table::<SIZE>::BITS;
    let (head, rest) = file.split_at(3);
    if head[0] != 8 {
        return Err(2);
    }
    if usize::from(head[1]) << 8 | usize::from(head[2]) != SIZE {
        return Err(3);
    }
    let (t_values, rest) = rest.split_at(bits);
    let t_values = eight(t_values);
    if t_values.contains(&0) {
        return Err(4);
    }
    if t_values[..2] != [1, 1] {
        return Err(5);
    }
    let (first, rest) = rest.split_at(7 * bits + 1);
    let (labels, second) = rest.split_at(3);
    let labels = eight(labels);
    if !is_order(&labels) {
        return Err(6);
    }
    if (first[7 * bits] | second[7 * bits]) & ((1 << (8 - bits)) - 1) != 0 {
        return Err(7);
    }
    let (first, second) = (matrix(first, bits), matrix(second, bits));
    if !is_invertible(table, first) || !is_invertible(table, second) {
        return Err(26);
    }
    Ok(Key { t_values, pair: Pair { matrix: first, labels }, second })
}

/// The half bytes of the bytes, high half first.
fn halves(bytes: &[u8]) -> impl Iterator<Item = u8> + '_ {
    bytes.iter().flat_map(|byte| [byte >> 4, byte & 15])
}

/// The letters of a word file.
fn read_word(file: &[u8]) -> Result<impl Iterator<Item = u8> + '_, u8> {
    let [high, low, packed @ ..] = file else { return Err(9) };
    let number = usize::from(u16::from_be_bytes([*high, *low]));
    if number > LETTERS {
        return Err(10);
    }
    if packed.len() != number.div_ceil(2) {
        return Err(11);
    }
    if halves(packed).take(number).any(|code| code & 7 == 7) {
        return Err(12);
    }
    if halves(packed).skip(number).any(|half| half != 0) {
        return Err(13);
    }
    Ok(halves(packed).take(number))
}

fn half_byte_braid(half: u8) -> impl Iterator<Item = u8> {
    let (selected, power) = ([6, 4, 2, 0][usize::from(half & 3)], 2 * usize::from((half >> 2) + 1));
    let down = (selected + 1..7).rev();
    let up = (selected + 1..7).map(|generator| generator + 8);
    down.chain(std::iter::repeat_n(selected, power)).chain(up)
}

fn matrix_product<const SIZE: usize>(table: &Table<SIZE>, a: &Matrix, b: &Matrix) -> Matrix {
    let entry = |row: &Eight, column: usize| {
        row.iter().zip(b).fold(0, |sum, (x, other)| sum ^ table.row(*x)[usize::from(other[column])])
    };
    std::array::from_fn(|row| std::array::from_fn(|column| entry(&a[row], column)))
}

const ORDER: Eight = [0, 1, 2, 3, 4, 5, 6, 7];

/// The verdict on a slip. `admit` gets the word's number of letters after all questions before 14.
fn verify_over<const SIZE: usize>(
    table: &Table<SIZE>,
    key: &[u8],
    digest: &[u8],
    word: &[u8],
    admit: impl FnOnce(usize) -> Result<(), u8>,
) -> Result<(), u8> {
    let Key { t_values, pair, second } = read_key(table, key)?;
    if digest.len() != if SIZE == 32 { 32 } else { 64 } {
        return Err(8);
    }
    let letters = read_word(word)?;
    admit(usize::from(word[0]) << 8 | usize::from(word[1]))?;
    let reached = pair.carried(table, &t_values, letters);
    let braid = halves(digest).flat_map(half_byte_braid);
    let encoded = Pair::with_labels(ORDER).carried(table, &t_values, braid);
    if reached.matrix == matrix_product(table, &encoded.matrix, &second) {
        Ok(())
    } else {
        Err(14)
    }
}

/// Reads a key, and returns its answer.
pub fn read(file: &[u8]) -> Result<(), u8> {
    match file.len() {
        83 => black_box(read_key(&SMALL, file)).map(|_| ()),
        128 => black_box(read_key(&LARGE, file)).map(|_| ()),
        _ => Err(1),
    }
}

fn verify_admitted(
    key: &[u8],
    digest: &[u8],
    word: &[u8],
    admit: impl FnOnce(usize) -> Result<(), u8>,
) -> Result<(), u8> {
    match key.len() {
        83 => verify_over(&SMALL, key, digest, word, admit),
        128 => verify_over(&LARGE, key, digest, word, admit),
        _ => Err(1),
    }
}

pub fn verify(key: &[u8], digest: &[u8], word: &[u8]) -> Result<(), u8> {
    verify_admitted(key, digest, word, |_| Ok(()))
}

/// The result of the first half of a verdict, and the input of the second. It has no positions, so the second half asks
/// question 6 only of the labels.
struct Half {
    t_values: Eight,
    pair: Pair,
    target: Matrix,
}

fn first_half<const SIZE: usize>(table: &Table<SIZE>, key: &[u8], digest: &[u8]) -> Result<Half, u8> {
    let Key { t_values, pair, second } = read_key(table, key)?;
    if digest.len() != if SIZE == 32 { 32 } else { 64 } {
        return Err(8);
    }
    let braid = halves(digest).flat_map(half_byte_braid);
    let encoded = Pair::with_labels(ORDER).carried(table, &t_values, braid);
    Ok(Half { t_values, pair, target: matrix_product(table, &encoded.matrix, &second) })
}

fn second_half<const SIZE: usize>(table: &Table<SIZE>, half: &Half, word: &[u8]) -> Result<(), u8> {
    let Half { t_values, pair, target } = half;
    let entries = pair.matrix.as_flattened().iter().chain(target.as_flattened());
    if t_values.iter().chain(entries).any(|number| usize::from(*number) >= SIZE) {
        return Err(17);
    }
    if t_values.contains(&0) {
        return Err(4);
    }
    if !is_order(&pair.labels) {
        return Err(6);
    }
    if !is_invertible(table, pair.matrix) || !is_invertible(table, *target) {
        return Err(26);
    }
    let letters = read_word(word)?;
    if pair.clone().carried(table, t_values, letters).matrix == *target {
        Ok(())
    } else {
        Err(14)
    }
}

fn by_halves_over<const SIZE: usize>(
    table: &Table<SIZE>,
    key: &[u8],
    digest: &[u8],
    words: &[Vec<u8>],
) -> Result<u32, u8> {
    let half = first_half(table, key, digest)?;
    let second = |word: &Vec<u8>| second_half(table, black_box(&half), word).err().map_or(0, u32::from);
    Ok(words.iter().map(second).sum())
}

/// The sum of the second half's answers to the words.
pub fn by_halves(key: &[u8], digest: &[u8], words: &[Vec<u8>]) -> Result<u32, u8> {
    match key.len() {
        83 => by_halves_over(&SMALL, key, digest, words),
        128 => by_halves_over(&LARGE, key, digest, words),
        _ => Err(1),
    }
}

fn cloaks_over<const SIZE: usize>(
    table: &Table<SIZE>,
    key: &[u8],
    labels: &[u8],
    word: &[u8],
) -> Result<bool, u8> {
    let key = read_key(table, key)?;
    let labels = Eight::try_from(labels).ok().filter(|labels| is_order(labels)).ok_or(25)?;
    let letters = read_word(word)?;
    let before = Pair::with_labels(labels);
    let after = before.clone().carried(table, &key.t_values, letters);
    Ok(after == before)
}

pub fn cloaks(key: &[u8], labels: &[u8], word: &[u8]) -> Result<bool, u8> {
    match key.len() {
        83 => cloaks_over(&SMALL, key, labels, word),
        128 => cloaks_over(&LARGE, key, labels, word),
        _ => Err(1),
    }
}

fn apart(c: u8, d: u8) -> u8 {
    (c & 7).abs_diff(d & 7)
}

/// Makes one move on a word.
fn make(codes: &mut Vec<u8>, kind: u8, place: usize) -> Result<(), u8> {
    match kind {
        1 => {
            let [c, d, ..] = codes.get(place..).ok_or(22)? else { return Err(22) };
            if *d != c ^ 8 {
                return Err(23);
            }
            codes.drain(place..place + 2);
        }
        2 => {
            let [c, d, ..] = codes.get(place..).ok_or(22)? else { return Err(22) };
            if apart(*c, *d) < 2 {
                return Err(23);
            }
            codes.swap(place, place + 1);
        }
        3 => {
            let [j, k, l, ..] = codes.get_mut(place..).ok_or(22)? else { return Err(22) };
            if apart(*j, *k) != 1 || (*j ^ *k) & 8 != 0 || j != l {
                return Err(23);
            }
            (*j, *k, *l) = (*k, *j, *k);
        }
        16..=22 | 24..=30 => {
            if place > codes.len() {
                return Err(22);
            }
            if codes.len() + 2 > LETTERS {
                return Err(24);
            }
            let letter = kind - 16;
            codes.splice(place..place, [letter, letter ^ 8]);
        }
        _ => return Err(21),
    }
    Ok(())
}

/// The places and kinds of a move list.
fn read_moves(moves: &[u8]) -> Result<impl Iterator<Item = (usize, u8)> + '_, u8> {
    let [high, low, steps @ ..] = moves else { return Err(18) };
    let count = usize::from(u16::from_be_bytes([*high, *low]));
    if count > 4096 {
        return Err(19);
    }
    if steps.len() != 3 * count {
        return Err(20);
    }
    let (places, kinds) = steps.split_at(2 * count);
    let places = places.chunks_exact(2).map(|place| usize::from(place[0]) << 8 | usize::from(place[1]));
    Ok(places.zip(kinds.iter().copied()))
}

/// Writes the word of these codes. Returns the number of bytes written.
fn write_codes(codes: &[u8], out: &mut [u8]) -> usize {
    out[..2].copy_from_slice(&(codes.len() as u16).to_be_bytes());
    for (byte, codes) in out[2..].iter_mut().zip(codes.chunks(2)) {
        *byte = codes[0] << 4 | codes.get(1).copied().unwrap_or(0);
    }
    2 + codes.len().div_ceil(2)
}

pub fn rewrite(word: &[u8], moves: &[u8], out: &mut [u8]) -> Result<usize, u8> {
    if out.len() < WORD_BYTES {
        return Err(15);
    }
    let mut codes: Vec<u8> = read_word(word)?.collect();
    for (place, kind) in read_moves(moves)? {
        make(&mut codes, kind, place)?;
    }
    Ok(write_codes(&codes, out))
}

/// Free reduction. Each letter either cancels the last letter of a stack or goes onto the stack.
pub fn free_reduce(word: &[u8], out: &mut [u8]) -> Result<usize, u8> {
    if out.len() < WORD_BYTES {
        return Err(15);
    }
    let mut codes: Vec<u8> = Vec::with_capacity(LETTERS);
    for code in read_word(word)? {
        if codes.last() == Some(&(code ^ 8)) {
            codes.pop();
        } else {
            codes.push(code);
        }
    }
    Ok(write_codes(&codes, out))
}

/// One place more than a word has letters.
const ROOM: usize = LETTERS + 1;

/// A row of codes with a gap from `left` to `right`. The codes already read stand before the gap, the others after it.
/// `latest` has the last place of each generator, plus 1; 0 is none. `before` has, for each place, the last place
/// before it that has the same generator, plus 1.
struct Gap {
    row: [u8; ROOM],
    latest: [u16; 8],
    before: [u16; ROOM],
    left: usize,
    right: usize,
}

/// Where the latest place of a code's generator is kept.
fn slot(code: u8) -> usize {
    usize::from(code & 7) + 1
}

impl Gap {
    /// If the next code ends a handle: the place where that handle begins, plus 1. Otherwise 0.
    fn begins(&self) -> usize {
        let code = self.row[self.right];
        let [less, own] = [slot(code) - 1, slot(code)].map(|slot| usize::from(self.latest[slot]));
        if own > less && self.row[own - 1] == code ^ 8 {
            own
        } else {
            0
        }
    }

    /// Moves the next code before the gap. It ends no handle.
    fn keep(&mut self) {
        let code = self.row[self.right];
        self.before[self.left] = self.latest[slot(code)];
        self.row[self.left] = code;
        self.left += 1;
        self.latest[slot(code)] = self.left as u16;
        self.right += 1;
    }

    /// Takes out the handle that the next code ends. The result is whether at most 10,000 codes are left.
    fn step(&mut self, own: usize) -> bool {
        let first = self.row[own - 1];
        let above = first + 1;
        let between = &self.row[own..self.left];
        let grown = between.iter().filter(|code| (**code ^ above) & 7 == 0).count();
        if self.left + 2 * grown > self.right + 1 {
            return false;
        }
        let mut at = self.right + 1;
        for place in (own..self.left).rev() {
            let code = self.row[place];
            self.latest[slot(code)] = self.before[place];
            if (code ^ above) & 7 == 0 {
                at -= 3;
                self.row[at..at + 3].copy_from_slice(&[above ^ 8, code - 1, above]);
            } else {
                at -= 1;
                self.row[at] = code;
            }
        }
        self.latest[slot(first)] = self.before[own - 1];
        (self.left, self.right) = (own - 1, at);
        true
    }
}

/// Takes handles out in at most `limit` steps. Returns whether a handle is left, and the number of bytes written.
pub fn handles(word: &[u8], mut limit: u16, out: &mut [u8]) -> Result<(bool, usize), u8> {
    if out.len() < WORD_BYTES {
        return Err(15);
    }
    let codes: Vec<u8> = read_word(word)?.collect();
    let right = ROOM - codes.len();
    let mut gap = Gap { row: [0; ROOM], latest: [0; 8], before: [0; ROOM], left: 0, right };
    gap.row[right..].copy_from_slice(&codes);
    let mut found = false;
    while gap.right < ROOM && !found {
        match gap.begins() {
            0 => gap.keep(),
            _ if limit == 0 => found = true,
            own if gap.step(own) => limit -= 1,
            _ => return Err(32),
        }
    }
    let mut left = gap.row[..gap.left].to_vec();
    left.extend(&gap.row[gap.right..]);
    Ok((found, write_codes(&left, out)))
}

/// Packs numbers of `bits` bits each into bytes. The most significant bit comes first, and zeros fill the last byte.
fn pack_bits(numbers: impl Iterator<Item = u8>, bits: u32, out: &mut [u8]) {
    let (mut held, mut count, mut at) = (0u32, 0, 0);
    for number in numbers {
        held = held << bits | u32::from(number);
        count += bits;
        if count >= 8 {
            count -= 8;
            out[at] = (held >> count) as u8;
            at += 1;
        }
    }
    if count > 0 {
        out[at] = (held << (8 - count)) as u8;
    }
}

/// Writes the stored form of a word: the sizes, the signs, and then the generators.
pub fn store(word: &[u8], out: &mut [u8]) -> Result<usize, u8> {
    if out.len() < STORED_BYTES {
        return Err(15);
    }
    let n = read_word(word)?.count();
    let (signs, generators) = (n.div_ceil(8), (3 * n).div_ceil(8));
    for (place, size) in [n, signs, generators].into_iter().enumerate() {
        out[2 * place..2 * place + 2].copy_from_slice(&(size as u16).to_be_bytes());
    }
    pack_bits(read_word(word)?.map(|code| code >> 3), 1, &mut out[6..]);
    pack_bits(read_word(word)?.map(|code| code & 7), 3, &mut out[6 + signs..]);
    Ok(6 + signs + generators)
}

/// The first `n` numbers of `bits` bits that the bytes hold, and whether the bits after them are zero.
fn unpack_bits(bytes: &[u8], bits: u32, n: usize) -> (Vec<u8>, bool) {
    let (mut held, mut count) = (0u32, 0);
    let mut numbers = Vec::with_capacity(n);
    for byte in bytes {
        held = held << 8 | u32::from(*byte);
        count += 8;
        while count >= bits && numbers.len() < n {
            count -= bits;
            numbers.push((held >> count & ((1 << bits) - 1)) as u8);
        }
    }
    (numbers, held & ((1 << count) - 1) == 0)
}

/// Writes the word of a stored form.
pub fn restore(stored: &[u8], out: &mut [u8]) -> Result<usize, u8> {
    if out.len() < WORD_BYTES {
        return Err(15);
    }
    let [a, b, c, d, e, f, rows @ ..] = stored else { return Err(28) };
    let [n, s, g] = [[*a, *b], [*c, *d], [*e, *f]].map(|size| usize::from(u16::from_be_bytes(size)));
    if n > LETTERS {
        return Err(10);
    }
    if s != n.div_ceil(8) || g != (3 * n).div_ceil(8) || rows.len() != s + g {
        return Err(28);
    }
    let (signs, signs_filled) = unpack_bits(&rows[..s], 1, n);
    let (generators, generators_filled) = unpack_bits(&rows[s..], 3, n);
    if generators.contains(&7) || !signs_filled || !generators_filled {
        return Err(29);
    }
    let codes: Vec<u8> = signs.iter().zip(&generators).map(|(sign, number)| sign << 3 | number).collect();
    Ok(write_codes(&codes, out))
}

/// The runs of the sixteen codes in the other dialect, for parts of 7.
fn runs(to_y: bool, parts: &[u8]) -> Result<[Vec<u8>; 16], u8> {
    let sum: usize = parts.iter().map(|part| usize::from(*part)).sum();
    if sum != 7 || parts.contains(&0) {
        return Err(33);
    }
    let mut runs: [Vec<u8>; 16] = Default::default();
    let (mut part, mut end) = (0, parts[0]);
    for g in 0..7 {
        if g == end {
            part += 1;
            end += parts[part];
        }
        runs[usize::from(g)] = match to_y {
            true if g + 1 < end => vec![g, (g + 1) | 8],
            true => vec![g],
            false => (g..end).collect(),
        };
        runs[usize::from(g) + 8] = runs[usize::from(g)].iter().rev().map(|code| code ^ 8).collect();
    }
    Ok(runs)
}

/// A word turned into the other dialect, letter by letter.
pub fn convert(to_y: bool, word: &[u8], parts: &[u8], out: &mut [u8]) -> Result<usize, u8> {
    if out.len() < WORD_BYTES {
        return Err(15);
    }
    let letters = read_word(word)?;
    let runs = runs(to_y, parts)?;
    let mut codes = Vec::with_capacity(LETTERS);
    for code in letters {
        codes.extend_from_slice(&runs[usize::from(code)]);
        if codes.len() > LETTERS {
            return Err(34);
        }
    }
    Ok(write_codes(&codes, out))
}

/// The relations of Appendix A, ten codes to a row: the row's letters, then 15.
pub fn relations() -> &'static [[u8; 10]; 79] {
    static ROWS: OnceLock<[[u8; 10]; 79]> = OnceLock::new();
    ROWS.get_or_init(|| {
        RELATIONS.map(|row| {
            let (codes, mut filled) = (codes_of(&relation(row)), [15; 10]);
            filled[..codes.len()].copy_from_slice(&codes);
            filled
        })
    })
}

/// The letters that replace a pair, by the first row and place that hold it.
fn replacement(pair: &[u8]) -> Option<Vec<u8>> {
    relations().iter().find_map(|row| {
        let letters = row.split(|code| *code == 15).next()?;
        let place = letters.windows(2).position(|two| two == pair)?;
        let inverse = |part: &[u8]| part.iter().rev().map(|code| code ^ 8).collect::<Vec<u8>>();
        Some([inverse(&letters[..place]), inverse(&letters[place + 2..])].concat())
    })
}

/// A Y word with the pair at a place replaced.
pub fn replace_pair(word: &[u8], place: usize, out: &mut [u8]) -> Result<usize, u8> {
    if out.len() < WORD_BYTES {
        return Err(15);
    }
    let mut codes: Vec<u8> = read_word(word)?.collect();
    let pair = codes.get(place..).and_then(|rest| rest.get(..2)).ok_or(22)?;
    if let Some(new) = replacement(pair) {
        codes.splice(place..place + 2, new);
    }
    if codes.len() > LETTERS {
        return Err(34);
    }
    Ok(write_codes(&codes, out))
}

/// How often two labels cross: one walk counts all pairs, by the label at a letter's place and the next.
pub fn crossings(word: &[u8], a: u8, b: u8) -> Result<i32, u8> {
    let letters = read_word(word)?;
    let (a, b) = (usize::from(a), usize::from(b));
    if a > 7 || b > 7 || a == b {
        return Err(27);
    }
    let (mut labels, mut numbers) = (ORDER, [[0; 8]; 8]);
    for code in letters {
        let g = usize::from(code & 7);
        let (label, next) = (labels[g], labels[g + 1]);
        numbers[usize::from(label)][usize::from(next)] += if code & 8 == 0 { 1 } else { -1 };
        labels.swap(g, g + 1);
    }
    Ok(numbers[a][b] + numbers[b][a])
}

/// A row each for b1, b2 and b3. For each of the 24 lists of four labels, in increasing order, a row has the place of
/// the list that the letter makes of it.
const NEIGHBOURS: [[u8; 24]; 3] = [
    [6, 7, 12, 13, 18, 19, 0, 1, 14, 15, 20, 21, 2, 3, 8, 9, 22, 23, 4, 5, 10, 11, 16, 17],
    [2, 4, 0, 5, 1, 3, 8, 10, 6, 11, 7, 9, 14, 16, 12, 17, 13, 15, 20, 22, 18, 23, 19, 21],
    [1, 0, 3, 2, 5, 4, 7, 6, 9, 8, 11, 10, 13, 12, 15, 14, 17, 16, 19, 18, 21, 20, 23, 22],
];

/// How many words of a length end in a list of four labels.
pub fn words_ending(length: usize, labels: &[u8]) -> Result<u32, u8> {
    let Ok([a, b, c, d]) = <[u8; 4]>::try_from(labels) else { return Err(35) };
    let seen = labels.iter().filter(|label| **label < 4).fold(0, |seen, label| seen | 1 << label);
    if length > 12 || seen != 15 {
        return Err(35);
    }
    let mut counts = [0; 24];
    counts[0] = 1;
    for _ in 0..length {
        let at = |row: usize, k: usize| counts[usize::from(NEIGHBOURS[row][k])];
        counts = std::array::from_fn(|k| 2 * (at(0, k) + at(1, k) + at(2, k)));
    }
    let place = 6 * a + 2 * (b - u8::from(a < b)) + u8::from(d < c);
    Ok(counts[usize::from(place)])
}

/// The bytes of a key shelf, and the slot of a publisher's key number.
pub const SHELF_BYTES: usize = 1036;

fn shelf_slot(publisher: usize, number: usize) -> Result<std::ops::Range<usize>, u8> {
    if !(1..=2).contains(&publisher) || number > 3 {
        return Err(30);
    }
    let at = 129 * (4 * (publisher - 1) + number);
    Ok(at..at + 129)
}

pub fn shelf_load(
    shelf: &mut [u8; SHELF_BYTES],
    publisher: usize,
    number: usize,
    key: &[u8],
) -> Result<(), u8> {
    let slot = shelf_slot(publisher, number)?;
    read(key)?;
    let slot = &mut shelf[slot];
    slot[0] = key.len() as u8;
    slot[1..=key.len()].copy_from_slice(key);
    slot[1 + key.len()..].fill(0);
    Ok(())
}

/// Charges letters to a publisher, in the last four bytes of a shelf, or refuses.
fn charge(charges: &mut [u8], publisher: usize, letters: usize) -> Result<(), u8> {
    let charged = [0, 2].map(|at| usize::from(charges[at]) << 8 | usize::from(charges[at + 1]));
    let own = charged[publisher - 1] + letters;
    if own.saturating_sub(10_000) + charged[2 - publisher].saturating_sub(10_000) > 10_000 {
        return Err(36);
    }
    charges[2 * publisher - 2..2 * publisher].copy_from_slice(&(own as u16).to_be_bytes());
    Ok(())
}

pub fn shelf_judge(
    shelf: &mut [u8; SHELF_BYTES],
    publisher: usize,
    number: usize,
    digest: &[u8],
    word: &[u8],
) -> Result<(), u8> {
    let (slots, charges) = shelf.split_at_mut(1032);
    let slot = &slots[shelf_slot(publisher, number)?];
    match usize::from(slot[0]).min(128) {
        0 => Err(31),
        bytes => {
            verify_admitted(&slot[1..=bytes], digest, word, |letters| charge(charges, publisher, letters))
        }
    }
}
