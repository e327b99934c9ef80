//! Write a sheet as a formula.

use crate::case::{Call, Case, Field, Part, SHEET_BUFFER, TEXT_BUFFER};
use crate::cell::FIRST;
use crate::fresh::printing;
use crate::fresh::sheet::Ask;
use crate::fresh::Fresh;
use crate::printing::print;
use crate::random::Random;
use crate::refusals::{cells, inputs, Refusal, DONE, NO_ROOM, NO_TEXT};
use crate::text::MOST_TEXT;

pub static CALL: Call = Call {
    code: 0x0B,
    name: "write a formula",
    asks: &[
        Field::Number("n", 8),
        Field::Bytes("sheet", SHEET_BUFFER),
        Field::Lent("room for the text", TEXT_BUFFER),
    ],
    answers: &[
        Part::Number("number", 1),
        Part::Number("place", 8),
        Part::Number("text length", 2),
        Part::Lent(0),
    ],
    gives: &[0, 1, 6, 9, 10, 16],
    answer,
    fresh,
};

pub fn case(n: u64, sheet: Vec<u8>, room: usize) -> Case {
    Case { call: &CALL, numbers: vec![n], bytes: vec![sheet], lent: vec![room] }
}

pub fn write(n: u64, sheet: &[u8], room: usize) -> Result<String, Refusal> {
    let n = inputs(n)?;
    if room < MOST_TEXT {
        return Err(NO_ROOM.into());
    }
    let cells = cells(&FIRST, n, sheet)?;
    print(n, &cells).ok_or(NO_TEXT.into())
}

fn answer(case: &Case, lent: &mut [Vec<u8>]) -> Vec<u64> {
    let [n] = case.numbers();
    match write(n, &case.bytes[0], lent[0].len()) {
        Ok(text) => {
            lent[0][..text.len()].copy_from_slice(text.as_bytes());
            vec![u64::from(DONE), 0, text.len() as u64]
        }
        Err(Refusal { number, place }) => vec![u64::from(number), place as u64, 0],
    }
}

fn fresh(random: &mut Random) -> Fresh {
    let n = random.between(1, 16);
    let Ask { n, sheet, room, tags, .. } = printing::draw(random, n);
    Fresh { case: case(n, sheet, room), tags }
}
