//! Run a desk of a card at an assignment: one bit.

use super::load::desk_on;
use crate::card::{desk_bytes, COUNT_AT, MARK_AT, N_AT, OPEN};
use crate::case::{Call, Case, Field, Part, CARD_BUFFER};
use crate::cell::{read_records, MOST_RECORDS, RECORD_BYTES};
use crate::fresh::cards::{self, Ask};
use crate::fresh::Fresh;
use crate::network;
use crate::random::Random;
use crate::refusals::{bad_record, each_read, inputs, Refusal};
use crate::refusals::{CLOSED, DONE, NO_ASSIGNMENT, NO_SHEET};

pub static CALL: Call = Call {
    code: 0x0E,
    name: "run desk",
    asks: &[Field::Number("desk", 8), Field::Number("x", 8), Field::Bytes("card", CARD_BUFFER)],
    answers: &[Part::Number("number", 1), Part::Number("bit", 1), Part::Number("index", 1)],
    gives: &[0, 1, 9, 10, 11, 15, 18, 19, 20],
    answer,
    fresh,
};

pub fn case(desk: u64, x: u64, card: Vec<u8>) -> Case {
    Case { call: &CALL, numbers: vec![desk, x], bytes: vec![card], lent: Vec::new() }
}

/// In the order of the cards' own lines, which is not that of their numbers.
pub fn run_desk(desk: u64, x: u64, card: &[u8]) -> Result<bool, Refusal> {
    let desk = desk_on(card, desk)?;
    let own = desk_bytes(card, desk);
    if own[MARK_AT] != OPEN {
        return Err(CLOSED.into());
    }
    let n = inputs(u64::from(own[N_AT]))?;
    let count = usize::from(own[COUNT_AT]);
    if !(1..=MOST_RECORDS).contains(&count) {
        return Err(NO_SHEET.into());
    }
    let cells = read_records(n, desk as u8, &own[..count * RECORD_BYTES]).map_err(bad_record)?;
    each_read(n, &cells)?;
    if x >= 1 << n {
        return Err(NO_ASSIGNMENT.into());
    }
    Ok(network::run(n, &cells, x as usize))
}

fn answer(case: &Case, _: &mut [Vec<u8>]) -> Vec<u64> {
    let [desk, x] = case.numbers();
    match run_desk(desk, x, &case.bytes[0]) {
        Ok(bit) => vec![u64::from(DONE), u64::from(bit), 0],
        Err(Refusal { number, place }) => vec![u64::from(number), 0, place as u64],
    }
}

fn fresh(random: &mut Random) -> Fresh {
    let Ask { desk, of, card, tags, .. } = cards::draw_run(random);
    Fresh { case: case(desk, of.x, card), tags }
}
