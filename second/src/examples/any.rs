//! Some examples for make with several first cells, worked out by hand.

use super::*;
use crate::calls::make_any;

/// At least two of four, with cells of three: two first cells over inputs 0 to 2,
/// as in the example for E12, and the final cell over input 3 and both of them.
const TWO_OF_FOUR: &str = "03 00 01 02 FF FF FF 02 16 00 00 00 00 00 00 00
                           03 00 01 02 FF FF FF 02 E8 00 00 00 00 00 00 00
                           03 03 04 05 FF FF FF 02 38 00 00 00 00 00 00 00";

pub fn all() -> Vec<Example> {
    let make = |n, k, desk, table: &str, room| {
        make_any::case([n, k, desk], unhex(table), room, WORK_BYTES)
    };
    vec![
        sheet("any", make(4, 3, 2, "E8 FE", SHEET_BYTES), TWO_OF_FOUR),
        // Where one first cell is enough, make's own sheet.
        sheet("any", make(3, 2, 0, "80", SHEET_BYTES), SHEET_OF_2),
        sheet("any", make(6, 4, 0, SELECTOR, SHEET_BYTES), SHEET_OF_7),
        // Two own inputs are not above two first cells.
        refusal("any", make(3, 2, 0, "E8", SHEET_BYTES), 8),
        refusal("any", make(3, 2, 5, "E8", 0), 5),
        refusal("any", make(3, 2, 4, "E8", SHEET_BYTES - 1), 6),
        refusal("any", make(2, 2, 5, "10", SHEET_BYTES), 4),
        refusal("any", make(0, 2, 5, "10", SHEET_BYTES), 1),
    ]
}
