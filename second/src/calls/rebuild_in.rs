//! Rebuild a table from a sheet, told the edition.

use super::rebuild::{rebuild, told};
use crate::case::{Call, Case, Field, Part, SHEET_BUFFER, TABLE_BUFFER};
use crate::fresh::sheet::{self, Ask};
use crate::fresh::Fresh;
use crate::random::Random;

pub static CALL: Call = Call {
    code: 0x16,
    name: "rebuild, ed.",
    asks: &[
        Field::Number("edition", 8),
        Field::Number("n", 8),
        Field::Bytes("sheet", SHEET_BUFFER),
        Field::Lent("room for the table", TABLE_BUFFER),
    ],
    answers: &[Part::Number("number", 1), Part::Number("index", 1), Part::Lent(0)],
    gives: &[0, 1, 2, 3, 9, 10, 15],
    answer,
    fresh,
};

pub fn case(edition: u64, n: u64, sheet: Vec<u8>, room: usize) -> Case {
    Case { call: &CALL, numbers: vec![edition, n], bytes: vec![sheet], lent: vec![room] }
}

fn answer(case: &Case, lent: &mut [Vec<u8>]) -> Vec<u64> {
    told(rebuild(case.numbers(), &case.bytes[0], lent[0].len()), &mut lent[0])
}

fn fresh(random: &mut Random) -> Fresh {
    let (edition, n) = (sheet::any_edition(random), sheet::walked_inputs(random));
    let mut ask = sheet::draw(random, edition, n);
    let record = sheet::RECORD;
    let faults = [
        sheet::PADDED,
        record,
        record,
        record,
        sheet::LENGTH,
        sheet::ROOM,
        sheet::OTHER_EDITION,
        sheet::EDITION,
        sheet::INPUTS,
    ];
    sheet::spoil(random, &mut ask, &faults);
    let Ask { edition, n, sheet, room, tags, .. } = ask;
    Fresh { case: case(edition, n, sheet, room), tags }
}
