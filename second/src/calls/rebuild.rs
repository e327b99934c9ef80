//! Rebuild a table from a sheet.

use crate::case::{Call, Case, Field, Part, SHEET_BUFFER, TABLE_BUFFER};
use crate::cell::FIRST;
use crate::fresh::sheet::{self, Ask};
use crate::fresh::Fresh;
use crate::network;
use crate::random::Random;
use crate::refusals::{cells, each_read, edition_and_inputs, Refusal, DONE, NO_LENGTH};
use crate::table::Table;

pub static CALL: Call = Call {
    code: 0x05,
    name: "rebuild",
    asks: &[
        Field::Number("n", 8),
        Field::Bytes("sheet", SHEET_BUFFER),
        Field::Lent("room for the table", TABLE_BUFFER),
    ],
    answers: &[Part::Number("number", 1), Part::Number("index", 1), Part::Lent(0)],
    gives: &[0, 1, 3, 9, 10, 15],
    answer,
    fresh,
};

pub fn case(n: u64, sheet: Vec<u8>, room: usize) -> Case {
    Case { call: &CALL, numbers: vec![n], bytes: vec![sheet], lent: vec![room] }
}

pub fn rebuild([edition, n]: [u64; 2], sheet: &[u8], room: usize) -> Result<Table, Refusal> {
    let (edition, n) = edition_and_inputs(edition, n)?;
    if room != Table::byte_length(n) {
        return Err(NO_LENGTH.into());
    }
    let cells = cells(edition, n, sheet)?;
    each_read(n, &cells)?;
    Ok(network::rebuild(n, &cells))
}

fn answer(case: &Case, lent: &mut [Vec<u8>]) -> Vec<u64> {
    let [n] = case.numbers();
    told(rebuild([FIRST.told, n], &case.bytes[0], lent[0].len()), &mut lent[0])
}

/// Number and index, with the table in the room.
pub fn told(rebuilt: Result<Table, Refusal>, room: &mut [u8]) -> Vec<u64> {
    match rebuilt {
        Ok(table) => {
            room.copy_from_slice(&table.to_bytes());
            vec![u64::from(DONE), 0]
        }
        Err(Refusal { number, place }) => vec![u64::from(number), place as u64],
    }
}

fn fresh(random: &mut Random) -> Fresh {
    let n = sheet::walked_inputs(random);
    let mut ask = sheet::draw(random, &FIRST, n);
    let record = sheet::RECORD;
    let faults = [sheet::PADDED, record, record, record, sheet::LENGTH, sheet::ROOM, sheet::INPUTS];
    sheet::spoil(random, &mut ask, &faults);
    let Ask { n, sheet, room, tags, .. } = ask;
    Fresh { case: case(n, sheet, room), tags }
}
