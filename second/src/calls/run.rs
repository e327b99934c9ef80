//! Run a sheet at an assignment: one bit.

use crate::case::{Call, Case, Field, Part, SHEET_BUFFER};
use crate::cell::{Edition, FIRST};
use crate::fresh::sheet::{self, Ask};
use crate::fresh::Fresh;
use crate::network;
use crate::random::Random;
use crate::refusals::{cells, each_read, edition_and_inputs, Refusal, DONE, NO_ASSIGNMENT};

pub static CALL: Call = Call {
    code: 0x04,
    name: "run",
    asks: &[Field::Number("n", 8), Field::Number("x", 8), Field::Bytes("sheet", SHEET_BUFFER)],
    answers: &[Part::Number("number", 1), Part::Number("bit", 1), Part::Number("index", 1)],
    gives: &[0, 1, 9, 10, 11, 15],
    answer,
    fresh,
};

pub fn case(n: u64, x: u64, sheet: Vec<u8>) -> Case {
    Case { call: &CALL, numbers: vec![n, x], bytes: vec![sheet], lent: Vec::new() }
}

pub fn run([edition, n, x]: [u64; 3], sheet: &[u8]) -> Result<bool, Refusal> {
    let (edition, n) = edition_and_inputs(edition, n)?;
    let cells = cells(edition, n, sheet)?;
    if x >= 1 << n {
        return Err(NO_ASSIGNMENT.into());
    }
    each_read(n, &cells)?;
    Ok(network::run(n, &cells, x as usize))
}

fn answer(case: &Case, _: &mut [Vec<u8>]) -> Vec<u64> {
    let [n, x] = case.numbers();
    told(run([FIRST.told, n, x], &case.bytes[0]))
}

/// Number, bit and index.
pub fn told(ran: Result<bool, Refusal>) -> Vec<u64> {
    match ran {
        Ok(bit) => vec![u64::from(DONE), u64::from(bit), 0],
        Err(Refusal { number, place }) => vec![u64::from(number), 0, place as u64],
    }
}

/// What may be asked of a run, in an edition.
pub fn drawn(random: &mut Random, edition: &'static Edition) -> Ask {
    let n = if random.one_in(4) { random.between(9, 16) } else { random.between(1, 8) };
    let mut ask = sheet::draw(random, edition, n);
    let last = (1u64 << n) - 1;
    ask.x = match random.below(4) {
        0 => last,
        1 => 0,
        _ => random.bits() & last,
    };
    ask
}

fn fresh(random: &mut Random) -> Fresh {
    let mut ask = drawn(random, &FIRST);
    let record = sheet::RECORD;
    let faults =
        [sheet::PADDED, record, record, record, sheet::LENGTH, sheet::ASSIGNMENT, sheet::INPUTS];
    sheet::spoil(random, &mut ask, &faults);
    let Ask { n, x, sheet, tags, .. } = ask;
    Fresh { case: case(n, x, sheet), tags }
}
