//! How many cells make with several first cells takes for the gates of the family,
//! written down: a change in any of them is seen even if our own chain changes too.

use crate::refusals::{DONE, NO_SPLIT, TOO_MANY};

/// In the family's order, a line for each number of inputs from 7 to 12: at least 2, 3, half
/// and all but one of n; exactly one; three comparisons if n is even; two ranges; the
/// session; multiples of 3 and 5. "many" would be more than 15, "none" has no split.
pub const SMALL_4: &str = "
    5 5 5 4    5           2 3   2   5 5
    5 5 7 5    5   3 3 3   3 3   4   5 9
    7 7 9 6    7           3 4   5   7 11
    7 7 11 7   7   4 4 3   3 4   6   7 13
    9 9 12 8   9           4 5   7   9 many
    9 9 13 9   9   5 5 4   4 5   8   9 many";

pub const SMALL_6: &str = "
    3 3 3 3    3           2 2   2   3 3
    3 3 3 3    3   2 2 2   2 2   2   3 3
    3 3 4 3    3           2 2   2   3 4
    3 3 6 3    3   2 2 2   2 2   3   3 6
    5 5 6 4    5           2 3   4   5 6
    5 5 7 5    5   3 3 3   3 3   5   5 7";

/// From 13 to 16 inputs.
pub const LARGE_4: &str = "
    11 11 15 10     11           4 6   9    11 many
    11 11 many 11   11   6 6 5   5 6   10   11 none
    13 13 many 12   13           5 7   11   13 none
    13 13 many 13   13   7 7 5   5 7   12   13 none";

/// At least 2, exactly one, multiples of 3; comparisons and ranges of 14 and of 16 inputs.
pub const LARGE_6: &str = "
    5 5 5
    3 3 3   3 3
    4 4 3   3 4";

/// The number and the count that each gate is answered with.
pub fn answers(counts: &str) -> impl Iterator<Item = (u8, u8)> + '_ {
    counts.split_whitespace().map(|word| match word {
        "many" => (TOO_MANY, 0),
        "none" => (NO_SPLIT, 0),
        count => (DONE, count.parse().expect("a count of cells")),
    })
}
