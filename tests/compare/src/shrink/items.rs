//! The items of parts: letters, moves and bytes.

use reference::rewrite::Move;

/// An item of a part. Shrinking removes items and lowers them.
pub trait Item: Copy + PartialEq {
    /// The item that replaces whole runs of items.
    const LEAST: Self;

    /// Smaller items, the smallest first.
    fn lower(self) -> Vec<Self>;
}

impl Item for u8 {
    const LEAST: u8 = 0;

    fn lower(self) -> Vec<u8> {
        let mut lower = vec![0, 1, self / 2, self.wrapping_sub(1)];
        lower.retain(|number| *number < self);
        lower
    }
}

impl Item for Move {
    const LEAST: Move = Move { place: 0, kind: 1 };

    fn lower(self) -> Vec<Move> {
        let mut places = vec![0, self.place / 2, self.place.wrapping_sub(1)];
        places.retain(|place| *place < self.place);
        let kinds = self.kind.lower().into_iter().map(|kind| Move { kind, ..self });
        places.into_iter().map(|place| Move { place, ..self }).chain(kinds).collect()
    }
}

/// The number in the first two bytes of a file.
fn head(file: &[u8]) -> Option<usize> {
    Some(u16::from_be_bytes([*file.first()?, *file.get(1)?]).into())
}

/// The half bytes of a word file that stand for letters. `None` if the file's length does not match its number of
/// letters.
pub fn word_items(file: &[u8]) -> Option<Vec<u8>> {
    let number = head(file)?;
    let mut halves: Vec<u8> = file[2..].iter().flat_map(|byte| [byte / 16, byte % 16]).collect();
    halves.truncate(number);
    (file.len() == 2 + number.div_ceil(2)).then_some(halves)
}

/// The filler of a word file with an odd number of letters, otherwise 0.
pub fn filler(file: &[u8]) -> u8 {
    match file {
        [_, low, .., last] if low % 2 == 1 => last % 16,
        _ => 0,
    }
}

/// The word file of these half bytes. It has this filler if their number is odd.
pub fn word_of(items: &[u8], filler: u8) -> Vec<u8> {
    let mut file = (items.len() as u16).to_be_bytes().to_vec();
    file.extend(items.chunks(2).map(|two| 16 * two[0] + two.get(1).unwrap_or(&filler)));
    file
}

/// The moves of a move list. `None` if the list's length does not match its number of moves.
pub fn move_items(list: &[u8]) -> Option<Vec<Move>> {
    let number = head(list)?;
    if list.len() != 2 + 3 * number {
        return None;
    }
    let (places, kinds) = list[2..].split_at(2 * number);
    let places = places.chunks_exact(2).map(|two| u16::from_be_bytes([two[0], two[1]]));
    Some(places.zip(kinds).map(|(place, kind)| Move { place, kind: *kind }).collect())
}
