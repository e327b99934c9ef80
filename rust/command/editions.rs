//! The calls by the edition of the sheet: the first has its own, any other number is told.

use pelzurivan::{
    check, check_told, find, find_told, make_any, make_told, rebuild, rebuild_told, run, run_told,
    try_split, try_told, Refusal, Split,
};

pub fn made(
    edition: u64,
    [n, k, desk]: [u64; 3],
    table: &[u8],
    sheet: &mut [u8],
    work: &mut [u8],
) -> Result<usize, Refusal> {
    match edition {
        1 => make_any(n, k, desk, table, sheet, work),
        told => make_told(told, n, k, desk, table, sheet, work),
    }
}

pub fn rebuilt(edition: u64, n: u64, sheet: &[u8], table: &mut [u8]) -> Result<(), Refusal> {
    match edition {
        1 => rebuild(n, sheet, table),
        told => rebuild_told(told, n, sheet, table),
    }
}

pub fn checked(edition: u64, n: u64, table: &[u8], sheet: &[u8]) -> Result<(), Refusal> {
    match edition {
        1 => check(n, table, sheet),
        told => check_told(told, n, table, sheet),
    }
}

pub fn ran(edition: u64, n: u64, sheet: &[u8], x: u64) -> Result<bool, Refusal> {
    match edition {
        1 => run(n, sheet, x),
        told => run_told(told, n, sheet, x),
    }
}

pub fn found(
    edition: u64,
    [n, k]: [u64; 2],
    table: &[u8],
    work: &mut [u8],
) -> Result<Split, Refusal> {
    match edition {
        1 => find(n, k, table, work),
        told => find_told(told, n, k, table, work),
    }
}

/// D in words of 64 bits, least first.
pub fn tried(
    edition: u64,
    [n, k]: [u64; 2],
    split: Split,
    table: &[u8],
    room: &mut [u8],
) -> Result<Vec<u64>, Refusal> {
    match edition {
        1 => try_split(n, k, split, table, room).map(|d| vec![d]),
        told => try_told(told, n, k, split, table, room).map(|d| d.to_vec()),
    }
}

/// The name of a call in the library, as the inspector's page says it.
pub fn named(edition: u64, call: &str) -> String {
    if edition == 1 {
        call.to_string()
    } else {
        format!("{call}_told")
    }
}
