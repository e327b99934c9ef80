//! The bench program from outside.

use super::programs::{Program, Run};
use crate::bench::bench;
use crate::examples::{unhex, SHEET_OF_1, SHEET_OF_2, SHEET_OF_6_ONES, SHEET_OF_6_ZEROS};
use crate::fresh::tables::KINDS;
use crate::random::Random;

pub static PROGRAM: Program =
    Program { name: "bench", ours: bench, documented, fresh, number: |output| output[0] };

/// What the documents themselves say about the bench program.
fn documented() -> Vec<Run> {
    let done = |sheet: &str| [&[0], &unhex(sheet)[..]].concat();
    let long = |n: u8, length: usize| [vec![n, 6], vec![0; length]].concat();
    vec![
        (vec![1, 2, 0x02], done(SHEET_OF_1)),
        (vec![3, 2, 0x80], done(SHEET_OF_2)),
        (vec![3, 2, 0x00], done(SHEET_OF_6_ZEROS)),
        (vec![3, 2, 0xFF], done(SHEET_OF_6_ONES)),
        (vec![3, 2, 0xE8], vec![8]),
        (vec![0, 2, 0x80], vec![1]),
        (vec![17, 2, 0x80], vec![1]),
        (vec![3, 1, 0x80], vec![2]),
        (vec![3, 7, 0x80], vec![2]),
        (vec![3, 2, 0x80, 0], vec![3]),
        (vec![2, 2, 0x10], vec![4]),
        (vec![], vec![1]),
        (vec![3], vec![2]),
        (vec![3, 2], vec![3]),
        (long(16, 8193), vec![3]),
        (long(16, 20_000), vec![3]),
        (long(17, 20_000), vec![1]),
        // More than a pipe holds: whoever writes it must not be cut off.
        (long(16, 300_000), vec![3]),
        (long(17, 300_000), vec![1]),
    ]
}

/// Fresh tables, in every tenth run with a few bytes cut off or added.
fn fresh(random: &mut Random, i: usize) -> Vec<u8> {
    let kind = KINDS[i % KINDS.len()];
    let n = random.between(1, 9);
    let drawn = kind.draw(random, n);
    let k = drawn.suits.unwrap_or(random.between(2, 6));
    let mut input = vec![drawn.table.inputs as u8, k as u8];
    input.extend(drawn.table.to_bytes());
    if random.one_in(10) {
        let length = random.below(input.len() + 3);
        input.resize(length, 0);
    }
    input
}
