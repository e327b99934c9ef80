//! Run a sheet, told the edition.

use super::run::{drawn, run, told};
use crate::case::{Call, Case, Field, Part, SHEET_BUFFER};
use crate::fresh::sheet::{self, Ask};
use crate::fresh::Fresh;
use crate::random::Random;

pub static CALL: Call = Call {
    code: 0x15,
    name: "run, edition",
    asks: &[
        Field::Number("edition", 8),
        Field::Number("n", 8),
        Field::Number("x", 8),
        Field::Bytes("sheet", SHEET_BUFFER),
    ],
    answers: &[Part::Number("number", 1), Part::Number("bit", 1), Part::Number("index", 1)],
    gives: &[0, 1, 2, 9, 10, 11, 15],
    answer,
    fresh,
};

pub fn case(edition: u64, n: u64, x: u64, sheet: Vec<u8>) -> Case {
    Case { call: &CALL, numbers: vec![edition, n, x], bytes: vec![sheet], lent: Vec::new() }
}

fn answer(case: &Case, _: &mut [Vec<u8>]) -> Vec<u64> {
    told(run(case.numbers(), &case.bytes[0]))
}

fn fresh(random: &mut Random) -> Fresh {
    let edition = sheet::any_edition(random);
    let mut ask = drawn(random, edition);
    let record = sheet::RECORD;
    let faults = [
        sheet::PADDED,
        record,
        record,
        record,
        sheet::LENGTH,
        sheet::ASSIGNMENT,
        sheet::OTHER_EDITION,
        sheet::EDITION,
        sheet::INPUTS,
    ];
    sheet::spoil(random, &mut ask, &faults);
    let Ask { edition, n, x, sheet, tags, .. } = ask;
    Fresh { case: case(edition, n, x, sheet), tags }
}
