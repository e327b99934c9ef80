//! Every bit of some made sheets flipped in turn, the table as it was: a change
//! that matters must be refused at the right place, one that does not is accepted.

use super::tables::chain_for;
use super::Fresh;
use crate::calls;
use crate::cell::{read_sheet, write_sheet, BENCH, RECORD_BYTES, SECOND};
use crate::chain::chain;
use crate::examples::{unhex, SELECTOR, SHEET_OF_2, SHEET_OF_7};
use crate::random::Random;
use crate::table::Table;

/// A table, and a sheet that the chain made for it.
pub struct Made {
    pub table: Table,
    pub sheet: Vec<u8>,
}

/// Two sheets of document 01, and one that is drawn.
pub fn sheets(random: &mut Random) -> Vec<Made> {
    let known =
        |n, table, sheet| Made { table: Table::from_bytes(n, &unhex(table)), sheet: unhex(sheet) };
    vec![known(3, "80", SHEET_OF_2), known(6, SELECTOR, SHEET_OF_7), drawn(random)]
}

/// A sheet of several cells.
fn drawn(random: &mut Random) -> Made {
    loop {
        let (n, k) = (random.between(5, 8), random.between(2, 4));
        let table = chain_for(random, n, k).table;
        match chain(&table, k) {
            Some(cells) if cells.len() > 1 => return Made { table, sheet: write_sheet(&cells) },
            _ => {}
        }
    }
}

/// The sheet with one bit flipped; bits are counted from the first byte's least.
pub fn flipped(sheet: &[u8], bit: usize) -> Vec<u8> {
    let mut other = sheet.to_vec();
    other[bit / 8] ^= 1 << (bit % 8);
    other
}

pub fn cases(random: &mut Random) -> Vec<Fresh> {
    let mut list = Vec::new();
    for Made { table, sheet } in sheets(random) {
        for bit in 0..sheet.len() * 8 {
            let what = match bit / 8 % RECORD_BYTES {
                0 => "k",
                1..=6 => "a signal",
                7 => "byte 7",
                _ => "a table",
            };
            let other = flipped(&sheet, bit);
            let case = calls::check::case(table.inputs as u64, table.to_bytes(), other);
            list.push(Fresh { case, tags: vec![format!("every bit of a sheet: {what}")] });
        }
    }
    list.extend(in_the_second_edition());
    list
}

/// The selector's sheet again, in records of 48 bytes.
fn in_the_second_edition() -> Vec<Fresh> {
    let table = unhex(SELECTOR);
    let cells = read_sheet(6, &unhex(SHEET_OF_7)).expect("a made sheet");
    let sheet = SECOND.write_sheet(BENCH, &cells);
    let tags = || vec!["every bit of a sheet: second edition".to_string()];
    let case = |bit| calls::check_in::case(SECOND.told, 6, table.clone(), flipped(&sheet, bit));
    (0..sheet.len() * 8).map(|bit| Fresh { case: case(bit), tags: tags() }).collect()
}
