//! Some examples for request E12, their answers worked out by hand.

use super::*;
use crate::calls::{find_several, try_several};

/// At least two of four. Over inputs 0 to 2 it has three columns: never (no
/// ones), input 3 (one), always (two or three). So one first cell is too few,
/// two are enough: bit 0 of the column's number where one is set, bit 1 where
/// two or three are. H over input 3 and the two: 3 where number 1, always where
/// number 2; number 3 is not used and gives never again.
const TWO_OF_FOUR: &str = "E8 FE";

fn try_with(n: u64, k: u64, r: u64, [own, shared]: [u16; 2], table: &str) -> Case {
    try_several::case([n, k, r], Split { own, shared }, unhex(table), 2)
}

fn tables_of(case: Case, d: [u8; 3], h: u8) -> Example {
    let mut expected = vec![0; 29];
    for (place, byte) in [1, 9, 17].into_iter().zip(d) {
        expected[place] = byte;
    }
    expected.extend([h, PRESET]);
    example("E12", case, expected)
}

fn breaks_at(case: Case, b: u8, columns: u8) -> Example {
    let mut expected = vec![0; 29];
    (expected[0], expected[25], expected[27]) = (8, b, columns);
    expected.extend([PRESET, PRESET]);
    example("E12", case, expected)
}

fn found(case: Case, r: u8, own: u8, shared: u8) -> Example {
    example("E12", case, vec![0, r, own, 0, shared, 0, 0])
}

pub fn all() -> Vec<Example> {
    let find = |n, k, table: &str| find_several::case(n, k, unhex(table), WORK_BYTES);
    vec![
        tables_of(try_with(4, 3, 2, [7, 0], TWO_OF_FOUR), [0x16, 0xE8, 0], 0x38),
        breaks_at(try_with(4, 3, 1, [7, 0], TWO_OF_FOUR), 0, 3),
        found(find(4, 3, TWO_OF_FOUR), 2, 7, 0),
        // With one first cell the pair of document 01: example 5.
        tables_of(try_with(3, 3, 1, [3, 4], "CA"), [0xCA, 0, 0], 0x0C),
        refusal("E12", try_with(4, 4, 0, [7, 0], TWO_OF_FOUR), 5),
        refusal("E12", try_with(4, 4, 4, [15, 0], TWO_OF_FOUR), 5),
        refusal("E12", try_with(4, 4, 3, [7, 0], TWO_OF_FOUR), 5),
        refusal("E12", try_with(4, 3, 2, [7, 8], TWO_OF_FOUR), 5),
        refusal("E12", find(3, 3, "E8"), 7),
        refusal("E12", find(3, 2, "E8"), 8),
        found(find(3, 2, "96"), 1, 3, 0),
        // The selector: as with one first cell.
        found(find(6, 4, SELECTOR), 1, 21, 32),
    ]
}
