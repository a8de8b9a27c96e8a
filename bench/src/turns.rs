//! Random turns, another way to shorten a word. The benchmark compares arcs with it. At random places, letters that
//! cancel are removed, letters far apart swap, and three letters turn.

use reference::testkit::Random;

/// Are two letters' generators at least two apart?
fn far(a: u8, b: u8) -> bool {
    (a & 7).abs_diff(b & 7) >= 2
}

/// What three letters turn into: j k j^s is k^s j k, and j^s k j is k j k^s, for neighbours j and k of one sign.
fn turn(three: &[u8]) -> Option<[u8; 3]> {
    let [a, b, c] = [three[0], three[1], three[2]];
    let neighbours = (a & 7).abs_diff(b & 7) == 1 && a & 7 == c & 7;
    let (sign, next) = (b & 8, b & 7);
    if !neighbours || a & 8 != sign && c & 8 != sign {
        return None;
    }
    // the letter whose sign may differ changes ends, and takes the other generator
    let middle = a & 7 | sign;
    Some([next | c & 8, middle, next | a & 8])
}

/// A word after `tries` tries for each of its letters.
pub fn turned(word: &[u8], tries: usize) -> Vec<u8> {
    let (random, mut word) = (&mut Random::seeded(1), word.to_vec());
    for _ in 0..tries * word.len() {
        if word.len() < 3 {
            break;
        }
        let place = random.below(word.len() as u64 - 2);
        if word[place] ^ word[place + 1] == 8 {
            word.drain(place..place + 2);
        } else if far(word[place], word[place + 1]) {
            word.swap(place, place + 1);
        } else if let Some(three) = turn(&word[place..place + 3]) {
            word[place..place + 3].copy_from_slice(&three);
        }
    }
    reference::reduce::freely_reduced(&word)
}
