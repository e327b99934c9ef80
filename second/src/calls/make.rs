//! Make a sheet: the count of cells, their records into a lent sheet.

use crate::case::{Call, Case, Field, Part, SHEET_BUFFER, TABLE_BUFFER, WORK_BUFFER};
use crate::cell::{BENCH, FIRST, SHEET_BYTES};
use crate::chain::chain;
use crate::fresh::gate::{self, Ask};
use crate::fresh::Fresh;
use crate::random::Random;
use crate::refusals::{clear_work, desk_of_sheet, gate_in, DONE, NO_ROOM, NO_SPLIT, WORK_BYTES};

pub static CALL: Call = Call {
    code: 0x03,
    name: "make",
    asks: &[
        Field::Number("n", 8),
        Field::Number("K", 8),
        Field::Bytes("table", TABLE_BUFFER),
        Field::Lent("room for the sheet", SHEET_BUFFER),
        Field::Lent("work area", WORK_BUFFER),
    ],
    answers: &[Part::Number("number", 1), Part::Number("count", 1), Part::Lent(0), Part::Mark(1)],
    gives: &[0, 1, 2, 3, 4, 6, 8],
    answer,
    fresh,
};

pub fn case(n: u64, k: u64, table: Vec<u8>, room: usize, work: usize) -> Case {
    Case { call: &CALL, numbers: vec![n, k], bytes: vec![table], lent: vec![room, work] }
}

/// A sheet that was made: how many cells it has, and its bytes.
pub struct Made {
    pub count: usize,
    pub sheet: Vec<u8>,
}

/// The table's sheet, for rooms of these lengths.
pub fn make(
    [edition, n, k, desk]: [u64; 4],
    table: &[u8],
    room: usize,
    work: usize,
) -> Result<Made, u8> {
    let (edition, gate, k) = gate_in([edition, n, k], table)?;
    let desk = desk_of_sheet(desk)?;
    if room < edition.sheet_bytes() || work < WORK_BYTES {
        return Err(NO_ROOM);
    }
    let cells = chain(&gate, k).ok_or(NO_SPLIT)?;
    Ok(Made { count: cells.len(), sheet: edition.write_sheet(desk, &cells) })
}

fn answer(case: &Case, lent: &mut [Vec<u8>]) -> Vec<u64> {
    let [n, k] = case.numbers();
    let numbers = [FIRST.told, n, k, u64::from(BENCH)];
    written(make(numbers, &case.bytes[0], lent[0].len(), lent[1].len()), lent)
}

/// Number and count, with the sheet in the room.
pub fn written(made: Result<Made, u8>, lent: &mut [Vec<u8>]) -> Vec<u64> {
    let (number, Made { count, sheet }) = match made {
        Ok(made) => (DONE, made),
        Err(number) => (number, Made { count: 0, sheet: Vec::new() }),
    };
    lent[0][..sheet.len()].copy_from_slice(&sheet);
    clear_work(number, &mut lent[1]);
    vec![u64::from(number), count as u64]
}

fn fresh(random: &mut Random) -> Fresh {
    let faults = [gate::SPARE, gate::ROOM, gate::WORK, gate::LENGTH, gate::CELL_SIZE, gate::INPUTS];
    let Ask { n, k, table, room, work, tags, .. } = drawn(random, &faults);
    Fresh { case: case(n, k, table, room, work), tags }
}

/// What may be asked of make, with room for a sheet, perhaps spoiled.
pub fn drawn(random: &mut Random, faults: &[gate::Fault]) -> Ask {
    let mut ask = gate::draw(random, false);
    ask.needed = SHEET_BYTES;
    gate::lend_room(random, &mut ask, SHEET_BUFFER);
    gate::spoil(random, &mut ask, faults);
    ask
}
