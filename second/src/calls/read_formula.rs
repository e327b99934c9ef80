//! Read a formula into a table.

use crate::case::{Call, Case, Field, Part, TABLE_BUFFER, TEXT_BUFFER};
use crate::fresh::sheet::walked_inputs;
use crate::fresh::texts::{self, Ask};
use crate::fresh::Fresh;
use crate::random::Random;
use crate::refusals::{inputs, Refusal, DONE, NO_LENGTH, NO_TEXT};
use crate::table::Table;
use crate::text;

pub static CALL: Call = Call {
    code: 0x0A,
    name: "read a formula",
    asks: &[
        Field::Number("n", 8),
        Field::Bytes("text", TEXT_BUFFER),
        Field::Lent("room for the table", TABLE_BUFFER),
    ],
    answers: &[Part::Number("number", 1), Part::Number("place", 8), Part::Lent(0)],
    gives: &[0, 1, 3, 16],
    answer,
    fresh,
};

pub fn case(n: u64, text: Vec<u8>, room: usize) -> Case {
    Case { call: &CALL, numbers: vec![n], bytes: vec![text], lent: vec![room] }
}

pub fn read(n: u64, text: &[u8], room: usize) -> Result<Table, Refusal> {
    let n = inputs(n)?;
    if room != Table::byte_length(n) {
        return Err(NO_LENGTH.into());
    }
    let steps = text::read(n, text).map_err(|place| Refusal { number: NO_TEXT, place })?;
    Ok(Table::from_rule(n, |x| text::value(&steps, x)))
}

fn answer(case: &Case, lent: &mut [Vec<u8>]) -> Vec<u64> {
    let [n] = case.numbers();
    match read(n, &case.bytes[0], lent[0].len()) {
        Ok(table) => {
            lent[0].copy_from_slice(&table.to_bytes());
            vec![u64::from(DONE), 0]
        }
        Err(Refusal { number, place }) => vec![u64::from(number), place as u64],
    }
}

fn fresh(random: &mut Random) -> Fresh {
    let n = walked_inputs(random);
    let Ask { n, text, room, tags } = texts::draw(random, n);
    Fresh { case: case(n, text, room), tags }
}
