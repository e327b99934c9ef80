//! Check anyone's sheet against a table, told the edition.

use super::check::{check_in, told, FAULTS};
use crate::case::{Call, Case, Field, Part, SHEET_BUFFER, TABLE_BUFFER};
use crate::fresh::sheet::{self, Ask};
use crate::fresh::Fresh;
use crate::random::Random;

pub static CALL: Call = Call {
    code: 0x17,
    name: "check, ed.",
    asks: &[
        Field::Number("edition", 8),
        Field::Number("n", 8),
        Field::Bytes("table", TABLE_BUFFER),
        Field::Bytes("sheet", SHEET_BUFFER),
    ],
    answers: &[Part::Number("number", 1), Part::Number("place", 8)],
    gives: &[0, 1, 2, 3, 4, 9, 10, 12, 15],
    answer,
    fresh,
};

pub fn case(edition: u64, n: u64, table: Vec<u8>, sheet: Vec<u8>) -> Case {
    Case { call: &CALL, numbers: vec![edition, n], bytes: vec![table, sheet], lent: Vec::new() }
}

fn answer(case: &Case, _: &mut [Vec<u8>]) -> Vec<u64> {
    told(check_in(case.numbers(), &case.bytes[0], &case.bytes[1]))
}

fn fresh(random: &mut Random) -> Fresh {
    let (edition, n) = (sheet::any_edition(random), sheet::walked_inputs(random));
    let mut ask = sheet::draw_with_table(random, edition, n);
    let faults = [&FAULTS[..], &[sheet::OTHER_EDITION, sheet::EDITION]].concat();
    sheet::spoil(random, &mut ask, &faults);
    let Ask { edition, n, table, sheet, tags, .. } = ask;
    Fresh { case: case(edition, n, table, sheet), tags }
}
