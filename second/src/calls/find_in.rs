//! Find the best split, told the edition.

use super::find::{find, told};
use crate::case::{Call, Case, Field, Part, TABLE_BUFFER, WORK_BUFFER};
use crate::fresh::gate::{self, Ask};
use crate::fresh::Fresh;
use crate::random::Random;

pub static CALL: Call = Call {
    code: 0x13,
    name: "find, edition",
    asks: &[
        Field::Number("edition", 8),
        Field::Number("n", 8),
        Field::Number("K", 8),
        Field::Bytes("table", TABLE_BUFFER),
        Field::Lent("work area", WORK_BUFFER),
    ],
    answers: &[
        Part::Number("number", 1),
        Part::Number("A", 2),
        Part::Number("B", 2),
        Part::Mark(0),
    ],
    gives: &[0, 1, 2, 3, 4, 6, 7, 8],
    answer,
    fresh,
};

pub fn case(numbers: [u64; 3], table: Vec<u8>, work: usize) -> Case {
    Case { call: &CALL, numbers: numbers.to_vec(), bytes: vec![table], lent: vec![work] }
}

fn answer(case: &Case, lent: &mut [Vec<u8>]) -> Vec<u64> {
    told(find(case.numbers(), &case.bytes[0], lent[0].len()), &mut lent[0])
}

fn fresh(random: &mut Random) -> Fresh {
    let mut ask = gate::draw_in(random, false);
    let faults = [
        gate::SPARE,
        gate::WORK,
        gate::LENGTH,
        gate::OTHER_EDITION,
        gate::CELL_SIZE,
        gate::EDITION,
        gate::INPUTS,
    ];
    gate::spoil(random, &mut ask, &faults);
    let Ask { edition, n, k, table, work, tags, .. } = ask;
    Fresh { case: case([edition, n, k], table, work), tags }
}
