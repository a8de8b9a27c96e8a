//! Worked slips: fields, words, pairs, keys, moves, crossings, spreading, cloaking, the verdict, whole and in halves, and
//! the key shelf, at both strengths.

use std::error::Error;

use walnut::Field::{self, Gf256, Gf32};
use walnut::{Letter, Moves, Pair, Refusal, Shelf, DIGEST_BYTES, SHELF_BYTES, STORED_BYTES, WORD_BYTES};

const T_VALUES: [u8; 8] = [1, 1, 2, 3, 4, 5, 6, 7];
const ORDER: [u8; 8] = [0, 1, 2, 3, 4, 5, 6, 7];

/// Bytes as two hexadecimal digits each.
fn hex(bytes: &[u8]) -> String {
    bytes.iter().map(|byte| format!("{byte:02X}")).collect::<Vec<_>>().join(" ")
}

/// The number that the library answered.
fn answer<T>(outcome: Result<T, Refusal>) -> u8 {
    outcome.err().map_or(0, Refusal::number)
}

/// Numbers in decimal.
fn decimal(numbers: &[u8]) -> String {
    numbers.iter().map(u8::to_string).collect::<Vec<_>>().join(" ")
}

/// A row of a matrix in decimal.
fn row(matrix: &[u8; 64], row: usize) -> String {
    decimal(&(1..=8).map(|column| matrix[walnut::place(row, column)]).collect::<Vec<_>>())
}

/// The key file over a field of T-values, the pair Pub(S) and the matrix of Pub(S').
fn key_file(field: Field, t_values: &[u8; 8], pair: &Pair, second: &[u8; 64]) -> Result<Vec<u8>, Refusal> {
    let (first, second) = (walnut::file_entries(&pair.matrix), walnut::file_entries(second));
    let mut key = vec![0; field.key_bytes()];
    walnut::write_key(field, t_values, &pair.labels, &first, &second, &mut key)?;
    Ok(key)
}

fn yes_or_no(yes: bool) -> &'static str {
    if yes {
        "yes"
    } else {
        "no"
    }
}

/// Fields and words.
fn words() -> Result<(), Box<dyn Error>> {
    println!("16 x 2 = {}", walnut::product(Gf32, 16, 2)?);
    println!("31 x 31 = {}", walnut::product(Gf32, 31, 31)?);
    println!("the reciprocal of 3 is {}", walnut::reciprocal(Gf32, 3)?);

    let mut out = [0; WORD_BYTES];
    let word = walnut::write_word(&walnut::codes("b1 b2^-1 b3 b4 b5^-1 b6 b7^-1")?, &mut out)?;
    println!("b1 b2^-1 b3 b4 b5^-1 b6 b7^-1 is {}", hex(word));
    println!("its letters: {}", walnut::read_word(word)?);
    let letters = walnut::letters(word)?.map(|letter| letter.to_string());
    println!("read back: {}", letters.collect::<Vec<_>>().join(" "));
    Ok(())
}

/// Pairs and keys: gives the plain key, both of whose matrices are the identity.
fn keys() -> Result<Vec<u8>, Refusal> {
    let mut pair = Pair::start();
    pair.multiply(Gf32, &T_VALUES, 2)?;
    println!("row 3 after b3: {}", row(&pair.matrix, 3));
    println!("column 4 after b3: {}", decimal(&pair.matrix[24..32]));

    let start = Pair::start();
    let key = key_file(Gf32, &T_VALUES, &start, &start.matrix)?;
    println!("plain T-values pack to {}", hex(&key[3..8]));
    println!("the list 0 to 7 packs to {}", hex(&key[44..47]));

    // Pub(S) is the starting pair times b3, and Pub(S') has the matrix of b3's inverse
    let mut inverse = Pair::start();
    inverse.multiply(Gf32, &T_VALUES, 10)?;
    let file = key_file(Gf32, &T_VALUES, &pair, &inverse.matrix)?;
    println!("row 3 after b3 packs to {}", hex(&file[18..23]));
    let held = walnut::read_key(&file)?;
    println!("a key with b3 and b3' read back:");
    println!("T-values {}", decimal(&held.t_values));
    println!("row 3 of Pub(S): {}", row(&held.pair.matrix, 3));
    println!("list of Pub(S): {}", decimal(&held.pair.labels));
    println!("positions of its labels: {}", decimal(&held.pair.positions));
    println!("strand 2 is at position {}", held.pair.position(2).unwrap_or(0));
    println!("row 3 of Pub(S'): {}", row(&held.second, 3));
    let back = key_file(held.field, &held.t_values, &held.pair, &held.second)?;
    println!("that key, read and written back, is the same: {}", yes_or_no(back == file));
    let blank = Pair { matrix: [0; 64], ..Pair::start() };
    let refused = key_file(Gf32, &T_VALUES, &blank, &blank.matrix);
    println!("a key with both matrices zero: answer {}", answer(refused));
    Ok(key)
}

/// Moves, free reduction, stored forms, the Y dialect and digests.
fn moves() -> Result<(), Refusal> {
    let mut out = [0; WORD_BYTES];
    let moved = walnut::rewrite(&[0, 3, 1, 0], &[0, 1, 0, 0, 3], &mut out)?;
    println!("00 03 01 00 with kind 3 at place 0 gives {}", hex(moved));
    let moves = Moves::new().turn(0).remove(3).file();
    println!("kind 3 at place 0 and then kind 1 at place 3 is {}", hex(&moves));
    let moved = walnut::rewrite(&[0, 5, 0x01, 0x03, 0xB0], &moves, &mut out)?;
    println!("on 00 05 01 03 B0 it gives {}", hex(moved));
    println!("00 02 08 freely reduced is {}", hex(walnut::free_reduce(&[0, 2, 8], &mut out)?));
    let short = walnut::shorten(&[0x00, 0x05, 0x01, 0x09, 0x80], 5, &mut out)?;
    println!("00 05 01 09 80 shortened is {}", hex(short));
    let mut shelf = [0; STORED_BYTES];
    let stored = walnut::store(&[0x00, 0x07, 0x09, 0x23, 0xC5, 0xE0], &mut shelf)?;
    println!("00 07 09 23 C5 E0 stored is {}", hex(stored));
    println!("restored it is {}", hex(walnut::restore(stored, &mut out)?));
    let (parts, pair) = ([4, 3], [0x00, 0x02, 0x6B]);
    let y_word = walnut::to_y(&[0x00, 0x02, 0x01], &parts, &mut out)?;
    println!("00 02 01 in Y letters for parts 4 and 3 is {}", hex(y_word));
    let artin = walnut::from_y(&[0x00, 0x01, 0xA0], &parts, &mut out)?;
    println!("00 01 A0 in Artin letters for parts 4 and 3 is {}", hex(artin));
    println!("with parts 4 and 4: answer {}", answer(walnut::to_y(&[0, 0], &[4, 4], &mut out)));
    println!("the pair at place 0 of 00 02 6B becomes {}", hex(walnut::replace_pair(&pair, 0, &mut out)?));
    println!("the pair at place 1: answer {}", answer(walnut::replace_pair(&pair, 1, &mut out)));
    println!("half byte 6 gives {}", hex(&walnut::encode_digest(&[0x66; DIGEST_BYTES], &mut out)?[2..8]));
    Ok(())
}

/// Handles taken out, and the shorter of two words.
fn handles() -> Result<(), Refusal> {
    let (word, mut out) = ([0x00, 0x05, 0x01, 0x29, 0x80], [0; WORD_BYTES]);
    for (text, limit) in [("b1 b2 b3 b2^-1 b1^-1 in 1 step is", 1), ("in 65535 steps it is", u16::MAX)] {
        let (new, left) = walnut::handle_reduce(&word, limit, &mut out)?;
        println!("{text} {}", hex(new));
        println!("a handle is left in it: {}", yes_or_no(left));
    }
    let mut codes = [1; 3336];
    (codes[0], codes[3335]) = (0, 8);
    let grows = walnut::write_word(&codes, &mut out)?.to_vec();
    let answer = answer(walnut::handle_reduce(&grows, 1, &mut out));
    println!("b1, 3334 times b2 and b1^-1 in 1 step: answer {answer}");
    let shorter = walnut::shorter(&[0x00, 0x03, 0x00, 0x80], &[0x00, 0x01, 0x00])?;
    println!("the shorter of 00 03 00 80 and 00 01 00 is {}", hex(shorter));
    Ok(())
}

/// How often strands cross.
fn crossings() -> Result<(), Refusal> {
    println!("strands 0 and 2 cross in b1 b2: {}", walnut::crossings(&[0, 2, 0x01], 0, 2)?);
    println!("strands 1 and 0 cross in b1^-1 b1^-1: {}", walnut::crossings(&[0, 2, 0x88], 1, 0)?);
    println!("strands 0 and 8: answer {}", answer(walnut::crossings(&[0, 0], 0, 8)));
    Ok(())
}

/// How words spread over the lists of four labels.
fn spreading() -> Result<(), Refusal> {
    println!("words of length 2 that end in 0 1 2 3: {}", walnut::words_ending(2, &[0, 1, 2, 3])?);
    println!("words of length 2 that end in 1 0 3 2: {}", walnut::words_ending(2, &[1, 0, 3, 2])?);
    println!("words of length 13: answer {}", answer(walnut::words_ending(13, &[0, 1, 2, 3])));
    Ok(())
}

/// Cloaking, a refused move and verdicts, under the plain key.
fn verdicts(key: &[u8]) -> Result<(), Box<dyn Error>> {
    println!("b1 b1 cloaks: {}", yes_or_no(walnut::cloaks(key, &ORDER, &[0, 2, 0x00])?));
    println!("b3 b3 cloaks: {}", yes_or_no(walnut::cloaks(key, &ORDER, &[0, 2, 0x22])?));
    let insertion = Moves::new().insert(1, "b1".parse::<Letter>()?);
    let refused = walnut::rewrite(&[0, 0], &insertion.file(), &mut [0; WORD_BYTES]).map(|_| ());
    println!("00 00 with kind 16 at place 1: answer {}", answer(refused));

    let mut signature = vec![0x00, 0x80];
    signature.resize(66, 0x66);
    let verdict = walnut::verify(key, &[0; DIGEST_BYTES], &signature);
    println!("plain key, zero digest, 00 80 and 64 bytes of 66: answer {}", answer(verdict));
    let verdict = walnut::verify(key, &[0; DIGEST_BYTES], &[0, 0]);
    println!("plain key, zero digest, 00 00: answer {}", answer(verdict));
    Ok(())
}

/// Several copies of a slip: the digest is encoded once, by the first half.
fn copies(key: &[u8]) -> Result<(), Box<dyn Error>> {
    let half = walnut::first_half(key, &[0; DIGEST_BYTES])?;
    let mut signature = vec![0x00, 0x80];
    signature.resize(66, 0x66);
    let mut out = [0; WORD_BYTES];
    let insertion = Moves::new().insert(0, "b1".parse::<Letter>()?);
    let rewritten = walnut::rewrite(&signature, &insertion.file(), &mut out)?;
    println!("plain key, zero digest, three copies by halves:");
    println!("00 80 and 64 bytes of 66: answer {}", answer(walnut::second_half(&half, &signature)));
    println!("the same with kind 16 at place 0: answer {}", answer(walnut::second_half(&half, rewritten)));
    println!("00 00: answer {}", answer(walnut::second_half(&half, &[0, 0])));
    let blank = walnut::Half { target: [0; 64], ..half };
    println!("a half with a target of zeros: answer {}", answer(walnut::second_half(&blank, &signature)));
    println!("a half of 31 zero bytes: answer {}", answer(walnut::first_half(key, &[0; 31])));
    Ok(())
}

/// The key shelf of two publishers.
fn shelves(key: &[u8]) {
    let mut signature = vec![0x00, 0x80];
    signature.resize(66, 0x66);
    let (mut shelf, digest) = (Shelf::empty(), [0; DIGEST_BYTES]);
    println!("publisher 1 loads the plain key under 0: answer {}", answer(shelf.load(1, 0, key)));
    println!("its slip by this key: answer {}", answer(shelf.judge(1, 0, &digest, &signature)));
    println!("publisher 2 has none under 0: answer {}", answer(shelf.judge(2, 0, &digest, &signature)));
    println!("there is no number 4: answer {}", answer(shelf.load(1, 4, key)));
    println!("number 0 begins with {}", hex(&shelf.bytes[..4]));
    // each publisher is sure of 10,000 letters in a round, and a further 10,000 go to whoever comes first
    let mut long_word = vec![0x27, 0x10];
    long_word.resize(WORD_BYTES, 0);
    let charged = |shelf: &Shelf| hex(&shelf.bytes[SHELF_BYTES - 4..]);
    println!("the letters charged to both are {}", charged(&shelf));
    println!("b1, 10000 times: answer {}", answer(shelf.judge(1, 0, &digest, &long_word)));
    println!("the letters charged to both are {}", charged(&shelf));
    println!("the same again: answer {}", answer(shelf.judge(1, 0, &digest, &long_word)));
    println!("publisher 2 starts a new round: answer {}", answer(shelf.round(2)));
    println!("the letters charged to both are {}", charged(&shelf));
    println!("publisher 3 starts a new round: answer {}", answer(shelf.round(3)));
    println!("publisher 1 clears 0: answer {}", answer(shelf.clear(1, 0)));
    println!("the shelf is empty again: {}", yes_or_no(shelf == Shelf::from([0; SHELF_BYTES])));
}

/// Products, keys and verdicts over the field with 256 elements.
fn larger_field() -> Result<(), Refusal> {
    println!("over 256 elements 128 x 2 = {}", walnut::product(Gf256, 128, 2)?);
    println!("16 x 2 = {}", walnut::product(Gf256, 16, 2)?);
    println!("the reciprocal of 3 is {}", walnut::reciprocal(Gf256, 3)?);
    let mut inverse = Pair::start();
    inverse.multiply(Gf256, &T_VALUES, 10)?;
    println!("row 3 after b3': {}", row(&inverse.matrix, 3));

    let start = Pair::start();
    let key = key_file(Gf256, &T_VALUES, &start, &start.matrix)?;
    println!("the plain key: {} bytes, from {}", key.len(), hex(&key[..11]));
    let file = key_file(Gf256, &T_VALUES, &inverse, &start.matrix)?;
    println!("row 3 after b3' packs to {}", hex(&file[27..35]));
    let held = walnut::read_key(&file)?;
    println!("row 3 of Pub(S): {}", row(&held.pair.matrix, 3));
    let back = key_file(held.field, &held.t_values, &held.pair, &held.second)?;
    println!("that key, read and written back, is the same: {}", yes_or_no(back == file));
    let mut small = key.clone();
    small[1..3].copy_from_slice(&[0, 32]);
    println!("128 bytes with q = 32: answer {}", answer(walnut::read_key(&small)));

    let mut signature = vec![0x01, 0x00];
    signature.resize(130, 0x66);
    let verdict = walnut::verify(&key, &[0; 64], &signature);
    println!("plain key, 64 zero bytes, 01 00 and 128 bytes of 66: answer {}", answer(verdict));
    let half = walnut::first_half(&key, &[0; 64])?;
    println!("the same by halves: answer {}", answer(walnut::second_half(&half, &signature)));
    println!("plain key, 64 zero bytes, 00 00: answer {}", answer(walnut::verify(&key, &[0; 64], &[0, 0])));
    println!("plain key, 32 zero bytes: answer {}", answer(walnut::verify(&key, &[0; 32], &signature)));
    Ok(())
}

fn main() -> Result<(), Box<dyn Error>> {
    words()?;
    let key = keys()?;
    moves()?;
    handles()?;
    crossings()?;
    spreading()?;
    verdicts(&key)?;
    copies(&key)?;
    shelves(&key);
    larger_field()?;
    Ok(())
}
