//! Find the best split with one, two or three first cells: how many, and two masks.

use crate::case::{Call, Case, Field, Part, TABLE_BUFFER, WORK_BUFFER};
use crate::fresh::gate::{self, Ask};
use crate::fresh::several;
use crate::fresh::Fresh;
use crate::random::Random;
use crate::refusals::{clear_work, gate, DONE, NO_NEED, NO_ROOM, NO_SPLIT, WORK_BYTES};
use crate::sets::size;
use crate::several::{best_several, Several};

pub static CALL: Call = Call {
    code: 0x11,
    name: "find several",
    asks: &[
        Field::Number("n", 8),
        Field::Number("K", 8),
        Field::Bytes("table", TABLE_BUFFER),
        Field::Lent("work area", WORK_BUFFER),
    ],
    answers: &[
        Part::Number("number", 1),
        Part::Number("r", 1),
        Part::Number("A", 2),
        Part::Number("B", 2),
        Part::Mark(0),
    ],
    gives: &[0, 1, 2, 3, 4, 6, 7, 8],
    answer,
    fresh,
};

pub fn case(n: u64, k: u64, table: Vec<u8>, work: usize) -> Case {
    Case { call: &CALL, numbers: vec![n, k], bytes: vec![table], lent: vec![work] }
}

fn find_several(n: u64, k: u64, table: &[u8], work: usize) -> Result<Several, u8> {
    let (gate, k) = gate(n, k, table)?;
    if work < WORK_BYTES {
        return Err(NO_ROOM);
    }
    if size(gate.counting()) <= k {
        return Err(NO_NEED);
    }
    best_several(&gate, k).ok_or(NO_SPLIT)
}

fn answer(case: &Case, lent: &mut [Vec<u8>]) -> Vec<u64> {
    let [n, k] = case.numbers();
    let found = find_several(n, k, &case.bytes[0], lent[0].len());
    let number = found.err().unwrap_or(DONE);
    clear_work(number, &mut lent[0]);
    let values = found.map_or([0; 3], |Several { r, split }| {
        [r as u64, u64::from(split.own), u64::from(split.shared)]
    });
    [&[u64::from(number)][..], &values].concat()
}

fn fresh(random: &mut Random) -> Fresh {
    let mut ask = several::draw(random, 10);
    let faults = [gate::SPARE, gate::WORK, gate::LENGTH, gate::CELL_SIZE, gate::INPUTS];
    gate::spoil(random, &mut ask, &faults);
    let Ask { n, k, table, work, tags, .. } = ask;
    Fresh { case: case(n, k, table, work), tags }
}
