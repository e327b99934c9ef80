//! When the bench says no: the numbers, and the lines that several calls have in common.
//!
//! Each call checks its own lines of the document's table in the order of their
//! numbers, so that the lowest number that applies is the one given.

use crate::cell::{Cell, Edition, FIRST, LAST_DESK, SECOND};
use crate::network::first_unread;
use crate::table::{Table, MOST_INPUTS};

pub const DONE: u8 = 0;
pub const NO_INPUTS: u8 = 1;
pub const NO_CELL_SIZE: u8 = 2;
pub const NO_LENGTH: u8 = 3;
pub const NO_SPARE: u8 = 4;
pub const NO_SETS: u8 = 5;
pub const NO_ROOM: u8 = 6;
pub const NO_NEED: u8 = 7;
pub const NO_SPLIT: u8 = 8;
pub const NO_SHEET: u8 = 9;
pub const NO_RECORD: u8 = 10;
pub const NO_ASSIGNMENT: u8 = 11;
pub const NO_MATCH: u8 = 12;
pub const NO_TIME: u8 = 13;
pub const NO_SLACK: u8 = 14;
pub const NO_READER: u8 = 15;
pub const NO_TEXT: u8 = 16;
pub const TOO_MANY: u8 = 17;
pub const CLOSED: u8 = 18;
pub const NO_DESK: u8 = 19;
pub const NO_CARD: u8 = 20;
pub const NO_TURN: u8 = 21;

/// A refusal: its number and what it names (a record's index, an assignment, a
/// place in a text), else 0.
#[derive(Clone, Copy, Debug, PartialEq, Eq)]
pub struct Refusal {
    pub number: u8,
    pub place: usize,
}

/// A number that names nothing.
impl From<u8> for Refusal {
    fn from(number: u8) -> Refusal {
        Refusal { number, place: 0 }
    }
}

/// The least work area that find and make take.
pub const WORK_BYTES: usize = 16_384;

/// Lines 1 to 4, which try, find and make have in common, for the first edition.
pub fn gate(n: u64, k: u64, table: &[u8]) -> Result<(Table, usize), u8> {
    let (_, gate, k) = gate_in([FIRST.told, n, k], table)?;
    Ok((gate, k))
}

/// The same where the edition is told.
pub fn gate_in(
    [edition, n, k]: [u64; 3],
    table: &[u8],
) -> Result<(&'static Edition, Table, usize), u8> {
    let (edition, n) = edition_and_inputs(edition, n)?;
    let k = cell_size(edition, k)?;
    Ok((edition, table_of(n, table)?, k))
}

/// Lines 1 and 2, as far as the calls on sheets have the second.
pub fn edition_and_inputs(edition: u64, n: u64) -> Result<(&'static Edition, usize), u8> {
    let n = inputs(n)?;
    let known = [&FIRST, &SECOND].into_iter().find(|known| known.told == edition);
    Ok((known.ok_or(NO_CELL_SIZE)?, n))
}

/// Line 1.
pub fn inputs(n: u64) -> Result<usize, u8> {
    match usize::try_from(n) {
        Ok(n) if (1..=MOST_INPUTS).contains(&n) => Ok(n),
        _ => Err(NO_INPUTS),
    }
}

/// Line 2.
fn cell_size(edition: &Edition, k: u64) -> Result<usize, u8> {
    match usize::try_from(k) {
        Ok(k) if (2..=edition.most_reads).contains(&k) => Ok(k),
        _ => Err(NO_CELL_SIZE),
    }
}

/// Lines 3 and 4: the length of the table, then its spare bits.
pub fn table_of(n: usize, table: &[u8]) -> Result<Table, u8> {
    if table.len() != Table::byte_length(n) {
        return Err(NO_LENGTH);
    }
    if n < 3 && table[0] >> (1 << n) != 0 {
        return Err(NO_SPARE);
    }
    Ok(Table::from_bytes(n, table))
}

/// Line 5 where a sheet is made: the desk it is for.
pub fn desk_of_sheet(desk: u64) -> Result<u8, u8> {
    match u8::try_from(desk) {
        Ok(desk) if desk <= LAST_DESK => Ok(desk),
        _ => Err(NO_SETS),
    }
}

/// Lines 9 and 10: the length of the sheet, then its records.
pub fn cells(edition: &Edition, n: usize, sheet: &[u8]) -> Result<Vec<Cell>, Refusal> {
    whole_records(edition, sheet)?;
    edition.read_sheet(n, sheet).map_err(bad_record)
}

/// Line 9.
pub fn whole_records(edition: &Edition, sheet: &[u8]) -> Result<(), u8> {
    let bytes = edition.record_bytes;
    let whole = sheet.chunks(bytes).all(|record| record.len() == bytes);
    match sheet.is_empty() || !whole || sheet.len() > edition.sheet_bytes() {
        true => Err(NO_SHEET),
        false => Ok(()),
    }
}

/// Line 10, with the index of the first bad record.
pub fn bad_record(place: usize) -> Refusal {
    Refusal { number: NO_RECORD, place }
}

/// Line 15: each record but the last is read by a later one.
pub fn each_read(n: usize, cells: &[Cell]) -> Result<(), Refusal> {
    match first_unread(n, cells) {
        Some(place) => Err(Refusal { number: NO_READER, place }),
        None => Ok(()),
    }
}

/// The work area afterwards: 1 to 7 leave it as found, 0, 8 and 17 leave zeros.
pub fn clear_work(number: u8, work: &mut [u8]) {
    if [DONE, NO_SPLIT, TOO_MANY].contains(&number) {
        work.fill(0);
    }
}
