//! The bench program's format: n, K and the table in; the number and the sheet out.

use crate::calls::make::make;
use crate::cell::{BENCH, FIRST, SHEET_BYTES};
use crate::refusals::{DONE, WORK_BYTES};

/// What the bench program writes for these bytes of standard input.
pub fn bench(input: &[u8]) -> Vec<u8> {
    // A missing n or K is taken as 0. A table that is too long for any gate
    // has a wrong length for this one, so it needs no rule of its own.
    let byte = |place: usize| u64::from(input.get(place).copied().unwrap_or(0));
    let table = input.get(2..).unwrap_or(&[]);
    let numbers = [FIRST.told, byte(0), byte(1), u64::from(BENCH)];
    match make(numbers, table, SHEET_BYTES, WORK_BYTES) {
        Ok(made) => [&[DONE], &made.sheet[..]].concat(),
        Err(number) => vec![number],
    }
}
