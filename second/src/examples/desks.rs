//! Some examples for request E10, their answers worked out by hand.

use super::*;
use crate::calls::{load, make_for_desk, run_desk};

/// The sheet of example 2 for desk 2, and with records of two desks.
const AND_OF_DESK_2: &str = "02 00 01 FF FF FF FF 02 08 00 00 00 00 00 00 00
                             02 02 03 FF FF FF FF 02 08 00 00 00 00 00 00 00";
const OF_DESKS_2_AND_3: &str = "02 00 01 FF FF FF FF 02 08 00 00 00 00 00 00 00
                                02 02 03 FF FF FF FF 03 08 00 00 00 00 00 00 00";
const OF_NO_DESK: &str = "02 00 01 FF FF FF FF 05 08 00 00 00 00 00 00 00
                          02 02 03 FF FF FF FF 05 08 00 00 00 00 00 00 00";

fn make_for(n: u64, k: u64, desk: u64, table: &str, room: usize) -> Case {
    make_for_desk::case([n, k, desk], unhex(table), room, WORK_BYTES)
}

fn made_for_a_desk() -> Vec<Example> {
    vec![
        sheet("E10", make_for(3, 2, 0, "80", SHEET_BYTES), SHEET_OF_2),
        sheet("E10", make_for(3, 2, 2, "80", SHEET_BYTES), AND_OF_DESK_2),
        refusal("E10", make_for(3, 2, 5, "80", SHEET_BYTES), 5),
        refusal("E10", make_for(3, 2, 5, "E8", SHEET_BYTES - 1), 5),
        refusal("E10", make_for(2, 2, 5, "10", SHEET_BYTES), 4),
        refusal("E10", make_for(3, 2, 4, "80", SHEET_BYTES - 1), 6),
        refusal("E10", make_for(3, 2, 4, "E8", SHEET_BYTES), 8),
    ]
}

fn records_of_desks() -> Vec<Example> {
    let ran =
        |sheet: &str, answer: [u8; 3]| example("E10", run(3, 7, &unhex(sheet)), answer.to_vec());
    vec![
        ran(AND_OF_DESK_2, [0, 1, 0]),
        ran(OF_DESKS_2_AND_3, [10, 0, 1]),
        ran(OF_NO_DESK, [10, 0, 0]),
        example("E10", rebuild(3, &unhex(AND_OF_DESK_2)), vec![0, 0, 0x80]),
        example("E10", rebuild(3, &unhex(OF_DESKS_2_AND_3)), vec![10, 1, PRESET]),
    ]
}

/// Desk 2 takes bytes 256 to 511: records from 256, mark, n and count from 496.
fn a_card() -> Vec<Example> {
    let (empty, and) = (vec![0; 1024], unhex(AND_OF_DESK_2));
    let mut loaded = empty.clone();
    loaded[256..288].copy_from_slice(&and);
    loaded[496..499].copy_from_slice(&[1, 3, 2]);
    let load = |desk: u64, n: u64, sheet: &[u8], card: &[u8]| {
        load::case(desk, n, sheet.to_vec(), card.to_vec())
    };
    let ran = |desk: u64, x: u64, card: &[u8], answer: [u8; 3]| {
        example("E10", run_desk::case(desk, x, card.to_vec()), answer.to_vec())
    };
    let mut bad = loaded.clone();
    bad[256 + 16 + 7] = 0;
    vec![
        example("E10", load(2, 3, &and, &empty), [&[0, 0], &loaded[..]].concat()),
        refusal("E10", load(2, 3, &and, &empty[1..]), 20),
        refusal("E10", load(1, 3, &and, &empty), 19),
        refusal("E10", load(2, 3, &unhex(SHEET_OF_2), &empty), 19),
        refusal("E10", load(5, 0, &[], &empty), 19),
        refusal("E10", load(2, 0, &and[..15], &empty), 1),
        refusal("E10", load(1, 3, &and[..15], &empty), 9),
        ran(2, 7, &loaded, [0, 1, 0]),
        ran(2, 6, &loaded, [0, 0, 0]),
        ran(2, 8, &loaded, [11, 0, 0]),
        ran(1, 7, &loaded, [18, 0, 0]),
        ran(0, 7, &loaded, [19, 0, 0]),
        ran(2, 7, &loaded[..1023], [20, 0, 0]),
        ran(2, 8, &bad, [10, 0, 1]),
    ]
}

pub fn all() -> Vec<Example> {
    [made_for_a_desk(), records_of_desks(), a_card()].into_iter().flatten().collect()
}
