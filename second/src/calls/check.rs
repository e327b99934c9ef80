//! Check anyone's sheet against a table: accepted, or where it goes wrong.

use crate::case::{Call, Case, Field, Part, SHEET_BUFFER, TABLE_BUFFER};
use crate::cell::FIRST;
use crate::fresh::sheet::{self, Ask};
use crate::fresh::Fresh;
use crate::network;
use crate::random::Random;
use crate::refusals::{cells, each_read, edition_and_inputs, table_of, Refusal, DONE, NO_MATCH};

pub static CALL: Call = Call {
    code: 0x06,
    name: "check",
    asks: &[
        Field::Number("n", 8),
        Field::Bytes("table", TABLE_BUFFER),
        Field::Bytes("sheet", SHEET_BUFFER),
    ],
    answers: &[Part::Number("number", 1), Part::Number("place", 8)],
    gives: &[0, 1, 3, 4, 9, 10, 12, 15],
    answer,
    fresh,
};

pub const FAULTS: [sheet::Fault; 9] = [
    sheet::SPARE,
    sheet::PADDED,
    sheet::DIFFERENCE,
    sheet::DIFFERENCE,
    sheet::RECORD,
    sheet::RECORD,
    sheet::LENGTH,
    sheet::TABLE_LENGTH,
    sheet::INPUTS,
];

pub fn case(n: u64, table: Vec<u8>, sheet: Vec<u8>) -> Case {
    Case { call: &CALL, numbers: vec![n], bytes: vec![table, sheet], lent: Vec::new() }
}

pub fn check(n: u64, table: &[u8], sheet: &[u8]) -> Result<(), Refusal> {
    check_in([FIRST.told, n], table, sheet)
}

/// Every assignment is run, from 0 up.
pub fn check_in([edition, n]: [u64; 2], table: &[u8], sheet: &[u8]) -> Result<(), Refusal> {
    let (edition, n) = edition_and_inputs(edition, n)?;
    let table = table_of(n, table)?;
    let cells = cells(edition, n, sheet)?;
    match (0..1 << n).find(|&x| network::run(n, &cells, x) != table.bits[x]) {
        Some(place) => Err(Refusal { number: NO_MATCH, place }),
        None => each_read(n, &cells),
    }
}

fn answer(case: &Case, _: &mut [Vec<u8>]) -> Vec<u64> {
    let [n] = case.numbers();
    told(check(n, &case.bytes[0], &case.bytes[1]))
}

/// Number and place.
pub fn told(told: Result<(), Refusal>) -> Vec<u64> {
    let Refusal { number, place } = told.err().unwrap_or(DONE.into());
    vec![u64::from(number), place as u64]
}

fn fresh(random: &mut Random) -> Fresh {
    let n = sheet::walked_inputs(random);
    let mut ask = sheet::draw_with_table(random, &FIRST, n);
    sheet::spoil(random, &mut ask, &FAULTS);
    let Ask { n, table, sheet, tags, .. } = ask;
    Fresh { case: case(n, table, sheet), tags }
}
