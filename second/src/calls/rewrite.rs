//! Rewrite a sheet of the first edition in the second.

use crate::case::{Call, Case, Field, Part, SHEET_BUFFER};
use crate::cell::{FIRST, SECOND};
use crate::fresh::sheet::{self, Ask};
use crate::fresh::Fresh;
use crate::random::Random;
use crate::refusals::{cells, each_read, inputs, Refusal, DONE, NO_ROOM};

pub static CALL: Call = Call {
    code: 0x18,
    name: "rewrite",
    asks: &[
        Field::Number("n", 8),
        Field::Bytes("sheet", SHEET_BUFFER),
        Field::Lent("room for the new sheet", SHEET_BUFFER),
    ],
    answers: &[
        Part::Number("number", 1),
        Part::Number("index", 1),
        Part::Number("count", 1),
        Part::Lent(0),
    ],
    gives: &[0, 1, 6, 9, 10, 15],
    answer,
    fresh,
};

pub fn case(n: u64, sheet: Vec<u8>, room: usize) -> Case {
    Case { call: &CALL, numbers: vec![n], bytes: vec![sheet], lent: vec![room] }
}

/// The new sheet, and how many records it has.
pub fn rewrite(n: u64, sheet: &[u8], room: usize) -> Result<(Vec<u8>, usize), Refusal> {
    let n = inputs(n)?;
    if room < SECOND.sheet_bytes() {
        return Err(NO_ROOM.into());
    }
    let cells = cells(&FIRST, n, sheet)?;
    each_read(n, &cells)?;
    Ok((SECOND.write_sheet(FIRST.desk_of(sheet), &cells), cells.len()))
}

fn answer(case: &Case, lent: &mut [Vec<u8>]) -> Vec<u64> {
    let [n] = case.numbers();
    match rewrite(n, &case.bytes[0], lent[0].len()) {
        Ok((sheet, count)) => {
            lent[0][..sheet.len()].copy_from_slice(&sheet);
            vec![u64::from(DONE), 0, count as u64]
        }
        Err(Refusal { number, place }) => vec![u64::from(number), place as u64, 0],
    }
}

fn fresh(random: &mut Random) -> Fresh {
    let n = random.between(1, 16);
    let mut ask = sheet::draw(random, &FIRST, n);
    sheet::lend_new_room(random, &mut ask);
    let record = sheet::RECORD;
    let faults = [sheet::PADDED, record, record, sheet::LENGTH, sheet::NEW_ROOM, sheet::INPUTS];
    sheet::spoil(random, &mut ask, &faults);
    let Ask { n, sheet, room, tags, .. } = ask;
    Fresh { case: case(n, sheet, room), tags }
}
