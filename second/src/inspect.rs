//! The inspecting program's format: n, the table and the sheet in; the number
//! and the place out, in decimal.

use crate::calls::check::check;
use crate::refusals::{Refusal, DONE};
use crate::table::{Table, MOST_INPUTS};

/// What the inspecting program prints for these bytes of standard input.
pub fn inspect(input: &[u8]) -> Vec<u8> {
    // A missing n is taken as 0. The table is as long as n says, or as the
    // input is; the rest is the sheet.
    let (n, rest) = input.split_first().unwrap_or((&0, &[]));
    let length = Table::byte_length(usize::from(*n).min(MOST_INPUTS));
    let (table, sheet) = rest.split_at(length.min(rest.len()));
    let told = check(u64::from(*n), table, sheet);
    let Refusal { number, place } = told.err().unwrap_or(DONE.into());
    format!("{number} {place}").into_bytes()
}
