//! A lower bound on the cells of a table.

use crate::case::{Call, Case, Field, Part, TABLE_BUFFER, WORK_BUFFER};
use crate::fresh::gate::{self, Ask};
use crate::fresh::least as fresh_least;
use crate::fresh::Fresh;
use crate::least::least;
use crate::random::Random;
use crate::refusals::{clear_work, gate_in, DONE, NO_ROOM, WORK_BYTES};

pub static CALL: Call = Call {
    code: 0x1B,
    name: "least cells",
    asks: &[
        Field::Number("edition", 8),
        Field::Number("n", 8),
        Field::Number("K", 8),
        Field::Bytes("table", TABLE_BUFFER),
        Field::Lent("work area", WORK_BUFFER),
    ],
    answers: &[Part::Number("number", 1), Part::Number("L", 1), Part::Mark(0)],
    gives: &[0, 1, 2, 3, 4, 6],
    answer,
    fresh,
};

pub fn case(numbers: [u64; 3], table: Vec<u8>, work: usize) -> Case {
    Case { call: &CALL, numbers: numbers.to_vec(), bytes: vec![table], lent: vec![work] }
}

fn least_cells(numbers: [u64; 3], table: &[u8], work: usize) -> Result<usize, u8> {
    let (_, gate, k) = gate_in(numbers, table)?;
    if work < WORK_BYTES {
        return Err(NO_ROOM);
    }
    Ok(least(&gate, k))
}

fn answer(case: &Case, lent: &mut [Vec<u8>]) -> Vec<u64> {
    let (number, least) = match least_cells(case.numbers(), &case.bytes[0], lent[0].len()) {
        Ok(least) => (DONE, least),
        Err(number) => (number, 0),
    };
    clear_work(number, &mut lent[0]);
    vec![u64::from(number), least as u64]
}

fn fresh(random: &mut Random) -> Fresh {
    let mut ask = fresh_least::draw(random);
    let faults = [
        gate::SPARE,
        gate::WORK,
        gate::LENGTH,
        gate::OTHER_EDITION,
        gate::CELL_SIZE,
        gate::EDITION,
        gate::INPUTS,
    ];
    gate::spoil(random, &mut ask, &faults);
    let Ask { edition, n, k, table, work, tags, .. } = ask;
    Fresh { case: case([edition, n, k], table, work), tags }
}
