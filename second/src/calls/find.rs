//! Find the best split: two masks.

use crate::best::best;
use crate::case::{Call, Case, Field, Part, TABLE_BUFFER, WORK_BUFFER};
use crate::cell::FIRST;
use crate::fresh::gate::{self, Ask};
use crate::fresh::Fresh;
use crate::random::Random;
use crate::refusals::{clear_work, gate_in, DONE, NO_NEED, NO_ROOM, NO_SPLIT, WORK_BYTES};
use crate::sets::size;
use crate::split::Split;

pub static CALL: Call = Call {
    code: 0x02,
    name: "find",
    asks: &[
        Field::Number("n", 8),
        Field::Number("K", 8),
        Field::Bytes("table", TABLE_BUFFER),
        Field::Lent("work area", WORK_BUFFER),
    ],
    answers: &[
        Part::Number("number", 1),
        Part::Number("A", 2),
        Part::Number("B", 2),
        Part::Mark(0),
    ],
    gives: &[0, 1, 2, 3, 4, 6, 7, 8],
    answer,
    fresh,
};

pub fn case(n: u64, k: u64, table: Vec<u8>, work: usize) -> Case {
    Case { call: &CALL, numbers: vec![n, k], bytes: vec![table], lent: vec![work] }
}

/// The best split, for numbers that are the edition, n and K.
pub fn find(numbers: [u64; 3], table: &[u8], work: usize) -> Result<Split, u8> {
    let (_, gate, k) = gate_in(numbers, table)?;
    if work < WORK_BYTES {
        return Err(NO_ROOM);
    }
    if size(gate.counting()) <= k {
        return Err(NO_NEED);
    }
    best(&gate, k).ok_or(NO_SPLIT)
}

fn answer(case: &Case, lent: &mut [Vec<u8>]) -> Vec<u64> {
    let [n, k] = case.numbers();
    told(find([FIRST.told, n, k], &case.bytes[0], lent[0].len()), &mut lent[0])
}

/// Number and masks, with the work area as it is left.
pub fn told(found: Result<Split, u8>, work: &mut [u8]) -> Vec<u64> {
    let (number, split) = match found {
        Ok(split) => (DONE, split),
        Err(number) => (number, Split { own: 0, shared: 0 }),
    };
    clear_work(number, work);
    vec![u64::from(number), u64::from(split.own), u64::from(split.shared)]
}

fn fresh(random: &mut Random) -> Fresh {
    let mut ask = gate::draw(random, false);
    let faults = [gate::SPARE, gate::WORK, gate::LENGTH, gate::CELL_SIZE, gate::INPUTS];
    gate::spoil(random, &mut ask, &faults);
    let Ask { n, k, table, work, tags, .. } = ask;
    Fresh { case: case(n, k, table, work), tags }
}
