//! Make a sheet for a desk, told the edition.

use super::make::{make, written};
use crate::case::{Call, Case, Field, Part, SHEET_BUFFER, TABLE_BUFFER, WORK_BUFFER};
use crate::cell::{FIRST, SECOND};
use crate::fresh::gate::{self, Ask};
use crate::fresh::Fresh;
use crate::random::Random;

pub static CALL: Call = Call {
    code: 0x14,
    name: "make, edition",
    asks: &[
        Field::Number("edition", 8),
        Field::Number("n", 8),
        Field::Number("K", 8),
        Field::Number("desk", 8),
        Field::Bytes("table", TABLE_BUFFER),
        Field::Lent("room for the sheet", SHEET_BUFFER),
        Field::Lent("work area", WORK_BUFFER),
    ],
    answers: &[Part::Number("number", 1), Part::Number("count", 1), Part::Lent(0), Part::Mark(1)],
    gives: &[0, 1, 2, 3, 4, 5, 6, 8],
    answer,
    fresh,
};

pub fn case(numbers: [u64; 4], table: Vec<u8>, room: usize, work: usize) -> Case {
    Case { call: &CALL, numbers: numbers.to_vec(), bytes: vec![table], lent: vec![room, work] }
}

fn answer(case: &Case, lent: &mut [Vec<u8>]) -> Vec<u64> {
    written(make(case.numbers(), &case.bytes[0], lent[0].len(), lent[1].len()), lent)
}

fn fresh(random: &mut Random) -> Fresh {
    let mut ask = gate::draw_in(random, false);
    let edition = if ask.edition == SECOND.told { &SECOND } else { &FIRST };
    ask.needed = edition.sheet_bytes();
    gate::lend_room(random, &mut ask, SHEET_BUFFER);
    let faults = [
        gate::SPARE,
        gate::DESK,
        gate::ROOM,
        gate::WORK,
        gate::LENGTH,
        gate::OTHER_EDITION,
        gate::CELL_SIZE,
        gate::EDITION,
        gate::INPUTS,
    ];
    gate::spoil(random, &mut ask, &faults);
    let Ask { edition, n, k, desk, table, room, work, tags, .. } = ask;
    Fresh { case: case([edition, n, k, desk], table, room, work), tags }
}
