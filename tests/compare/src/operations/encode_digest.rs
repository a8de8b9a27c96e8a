//! The encoder of digests.

use crate::operation::prelude::*;

pub struct EncodeDigest;

impl Operation for EncodeDigest {
    fn facts(&self) -> Facts {
        let facts = Facts::of("encode_digest", &[15, 8], &[parts::DIGEST]);
        Facts { over: Over::Digest, output: WORDS, numbers: &["bytes"], ..facts }
    }

    /// Fault 8 is a length that no digest has.
    fn make(&self, maker: &mut Maker, field: Field, faults: &[u8], _: Size) -> Option<Parts> {
        let mut digest = maker.digest(field);
        if faults.contains(&8) {
            files::change_length(&mut maker.random, &mut digest, 0);
        }
        Some(vec![digest])
    }

    fn call(&self, by: By, input: &Input) -> Outcome {
        let [digest] = input.slices();
        input.lending(|out| {
            let (bytes, room) = (out.as_mut_ptr(), out.len());
            match by {
                // SAFETY: see `Operation::call`.
                By::Library => outcome!(
                    unsafe { walnut_encode_digest(digest.as_ptr(), digest.len(), bytes, room) },
                    bytes
                ),
                By::Reference => outcome!(reference::encode_digest(digest, out), bytes),
            }
        })
    }

    /// Half byte 0 gives b7 b7. Document 01 gives half byte 6, which has twelve letters. Half bytes 1, 2, 3, 4 follow
    /// document 01's rule; the digest 1234 is an example of source 000. 32 zero bytes and 32 bytes 66 have
    /// 128 + 64 × 12 = 896 letters.
    fn fixed(&self) -> Vec<Fixed> {
        let encode = |name: &str, digest: &[u8]| Fixed::of(&EncodeDigest, name, &[digest]);
        let sixes = |head: &str, times: usize| hex(&format!("{head} {}", "65 43 22 22 BC DE ".repeat(times)));
        let four = "65 44 DE 65 43 22 BC DE 65 43 21 00 9A BC DE 66 66";
        let mixed = hex(&format!("00 9A {four} {}", "66 ".repeat(60)));
        let half = [hex("03 80"), vec![0x66; 64], sixes("", 64)].concat();
        let mut cases = vec![
            encode("32 bytes 66", &[0x66; 32]).writes(&sixes("03 00", 64)),
            encode("32 zero bytes", &[0; 32]).writes(&sevens(128)),
            encode("12 34 and zeros", &[&[0x12, 0x34][..], &[0; 30]].concat()).writes(&mixed),
            encode("64 zero bytes", &[0; 64]).writes(&sevens(256)),
            encode("64 bytes 66", &[0x66; 64]).writes(&sixes("06 00", 128)),
            encode("32 zero bytes and 32 bytes 66", &[[0; 32], [0x66; 32]].concat()).writes(&half),
            encode("31 bytes, 5,001 of room", &[0; 31]).room(5_001).refused(15),
            encode("63 bytes, 5,001 of room", &[0; 63]).room(5_001).refused(15),
        ];
        for bytes in [0, 31, 33, 63, 65, 96, 128] {
            cases.push(encode(&format!("{bytes} bytes"), &vec![0; bytes]).refused(8));
        }
        cases
    }

    /// Digests of zeros with each byte at a random place, digests of one byte repeated, and digests of each length.
    fn small(&self, run: &mut Run) -> Checked {
        for bytes in Field::BOTH.map(Field::digest_bytes) {
            for byte in 0..=255 {
                let mut digest = vec![0; bytes];
                digest[run.maker.random.below(bytes as u64)] = byte;
                run.parts(&EncodeDigest, vec![digest], Some(0))?;
                run.parts(&EncodeDigest, vec![vec![byte; bytes]], Some(0))?;
            }
            for length in 0..=130 {
                let digest = run.maker.random.bytes(length);
                let expected = if length == 32 || length == 64 { 0 } else { 8 };
                run.parts(&EncodeDigest, vec![digest], Some(expected))?;
            }
        }
        Ok(())
    }
}
