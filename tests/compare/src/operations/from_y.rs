//! Y to Artin.

use reference::dialect::Way;

use crate::operation::prelude::*;
use crate::operations::to_y::{call, facts, make, no_parts, small};

pub struct FromY;

impl Operation for FromY {
    fn facts(&self) -> Facts {
        facts("from_y")
    }

    fn make(&self, maker: &mut Maker, _: Field, faults: &[u8], size: Size) -> Option<Parts> {
        make(Way::FromY, maker, faults, size)
    }

    fn call(&self, by: By, input: &Input) -> Outcome {
        call(Way::FromY, by, input)
    }

    fn fixed(&self) -> Vec<Fixed> {
        let case = |name: &str, word: &str, parts: &[u8]| Fixed::of(&FromY, name, &[&hex(word), parts]);
        let mut cases = vec![
            // y1 becomes b1 b2 b3 b4, and y5 becomes b5 b6 b7.
            case("y1 y5", "00 02 04", &[4, 3]).writes(&hex("00 07 01 23 45 60")),
            // y3⁻¹ becomes b4⁻¹ b3⁻¹.
            case("y3⁻¹", "00 01 A0", &[4, 3]).writes(&hex("00 02 BA")),
            case("y4 at the part's end", "00 01 30", &[4, 3]).writes(&hex("00 01 30")),
            case("y4 inside one part", "00 01 30", &[7]).writes(&hex("00 04 34 56")),
            case("seven parts", SEVEN, &[1; 7]).writes(&hex(SEVEN)),
            case("a word before parts", "00", &[]).refused(9),
        ];
        // Each y1 becomes four letters, so 2,500 letters y1 become 10,000 letters.
        let word = [hex("09 C4"), vec![0; 1_250]].concat();
        let full = [hex("27 10"), [0x01, 0x23].repeat(2_500)].concat();
        cases.push(Fixed::of(&FromY, "2,500 letters y1", &[&word, &[4, 3]]).writes(&full));
        let more = [hex("09 C5"), vec![0; 1_251]].concat();
        cases.push(Fixed::of(&FromY, "2,501 letters y1", &[&more, &[4, 3]]).refused(34));
        cases.extend(no_parts().into_iter().map(|parts| case("no parts of 7", "00 00", &parts).refused(33)));
        cases
    }

    fn small(&self, run: &mut Run) -> Checked {
        small(&FromY, run)
    }
}
