//! Parts of a number.

/// All lists of positive numbers with this sum. For the sum 7 there are 64 lists.
pub fn compositions(sum: u8) -> Vec<Vec<u8>> {
    if sum == 0 {
        return vec![Vec::new()];
    }
    let mut all = Vec::new();
    for first in 1..=sum {
        for rest in compositions(sum - first) {
            all.push([vec![first], rest].concat());
        }
    }
    all
}
