//! Make a sheet for a desk, with several first cells where one isn't enough.

use super::make::{make, written, Made};
use super::make_for_desk::FAULTS;
use crate::case::{Call, Case, Field, Part, SHEET_BUFFER, TABLE_BUFFER, WORK_BUFFER};
use crate::cell::{write_sheet_for, FIRST, MOST_RECORDS, SHEET_BYTES};
use crate::chain::chain_any;
use crate::fresh::gate::{self, Ask};
use crate::fresh::several_chains;
use crate::fresh::Fresh;
use crate::random::Random;
use crate::refusals::{desk_of_sheet, gate, NO_SPLIT, TOO_MANY};

pub static CALL: Call = Call {
    code: 0x1D,
    name: "make, any",
    asks: &[
        Field::Number("n", 8),
        Field::Number("K", 8),
        Field::Number("desk", 8),
        Field::Bytes("table", TABLE_BUFFER),
        Field::Lent("room for the sheet", SHEET_BUFFER),
        Field::Lent("work area", WORK_BUFFER),
    ],
    answers: &[Part::Number("number", 1), Part::Number("count", 1), Part::Lent(0), Part::Mark(1)],
    gives: &[0, 1, 2, 3, 4, 5, 6, 8, 17],
    answer,
    fresh,
};

pub fn case(numbers: [u64; 3], table: Vec<u8>, room: usize, work: usize) -> Case {
    Case { call: &CALL, numbers: numbers.to_vec(), bytes: vec![table], lent: vec![room, work] }
}

/// As make, unless it gives 8; then the chain with several first cells.
pub fn make_any(
    [n, k, desk]: [u64; 3],
    table: &[u8],
    room: usize,
    work: usize,
) -> Result<Made, u8> {
    match make([FIRST.told, n, k, desk], table, room, work) {
        Err(NO_SPLIT) => {}
        made => return made,
    }
    let (gate, k) = gate(n, k, table)?;
    let cells = chain_any(&gate, k).ok_or(NO_SPLIT)?;
    if cells.len() > MOST_RECORDS {
        return Err(TOO_MANY);
    }
    Ok(Made { count: cells.len(), sheet: write_sheet_for(desk_of_sheet(desk)?, &cells) })
}

fn answer(case: &Case, lent: &mut [Vec<u8>]) -> Vec<u64> {
    written(make_any(case.numbers(), &case.bytes[0], lent[0].len(), lent[1].len()), lent)
}

fn fresh(random: &mut Random) -> Fresh {
    let mut ask = several_chains::draw(random);
    ask.needed = SHEET_BYTES;
    gate::lend_room(random, &mut ask, SHEET_BUFFER);
    gate::spoil(random, &mut ask, &FAULTS);
    let Ask { n, k, desk, table, room, work, tags, .. } = ask;
    Fresh { case: case([n, k, desk], table, room, work), tags }
}
