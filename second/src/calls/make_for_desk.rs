//! Make a sheet for a desk: as make does, with the desk in each record.

use super::make::{drawn, make, written};
use crate::case::{Call, Case, Field, Part, SHEET_BUFFER, TABLE_BUFFER, WORK_BUFFER};
use crate::cell::FIRST;
use crate::fresh::gate::{self, Ask};
use crate::fresh::Fresh;
use crate::random::Random;

pub static CALL: Call = Call {
    code: 0x0C,
    name: "make, desk",
    asks: &[
        Field::Number("n", 8),
        Field::Number("K", 8),
        Field::Number("desk", 8),
        Field::Bytes("table", TABLE_BUFFER),
        Field::Lent("room for the sheet", SHEET_BUFFER),
        Field::Lent("work area", WORK_BUFFER),
    ],
    answers: &[Part::Number("number", 1), Part::Number("count", 1), Part::Lent(0), Part::Mark(1)],
    gives: &[0, 1, 2, 3, 4, 5, 6, 8],
    answer,
    fresh,
};

pub const FAULTS: [gate::Fault; 7] =
    [gate::SPARE, gate::DESK, gate::ROOM, gate::WORK, gate::LENGTH, gate::CELL_SIZE, gate::INPUTS];

pub fn case(numbers: [u64; 3], table: Vec<u8>, room: usize, work: usize) -> Case {
    Case { call: &CALL, numbers: numbers.to_vec(), bytes: vec![table], lent: vec![room, work] }
}

fn answer(case: &Case, lent: &mut [Vec<u8>]) -> Vec<u64> {
    let [n, k, desk] = case.numbers();
    let numbers = [FIRST.told, n, k, desk];
    written(make(numbers, &case.bytes[0], lent[0].len(), lent[1].len()), lent)
}

fn fresh(random: &mut Random) -> Fresh {
    let Ask { n, k, desk, table, room, work, mut tags, .. } = drawn(random, &FAULTS);
    tags.push(format!(
        "desk to make for: {}",
        if desk > 4 { "above 4".into() } else { desk.to_string() }
    ));
    Fresh { case: case([n, k, desk], table, room, work), tags }
}
