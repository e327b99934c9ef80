//! When does the gate settle: the output's earliest and latest time.

use crate::case::{Call, Case, Field, Part, SHEET_BUFFER};
use crate::cell::{Cell, FIRST};
use crate::fresh::sheet::{self, Ask};
use crate::fresh::timing;
use crate::fresh::Fresh;
use crate::random::Random;
use crate::refusals::{cells, inputs, Refusal, DONE};
use crate::times::{self, sound, Sound, Time, TIMES_BYTES};

pub static CALL: Call = Call {
    code: 0x07,
    name: "settle",
    asks: &[
        Field::Number("n", 8),
        Field::Bytes("sheet", SHEET_BUFFER),
        Field::Number("delay", 8),
        Field::Fixed("times", TIMES_BYTES, times::shown),
    ],
    answers: &[
        Part::Number("number", 1),
        Part::Number("index", 1),
        Part::Number("earliest", 8),
        Part::Number("latest", 8),
    ],
    gives: &[0, 1, 9, 10, 13],
    answer,
    fresh,
};

pub fn case(n: u64, sheet: Vec<u8>, delay: f64, times: &[Time]) -> Case {
    let bytes = vec![sheet, times::write(times)];
    Case { call: &CALL, numbers: vec![n, delay.to_bits()], bytes, lent: Vec::new() }
}

/// Lines 1, 9, 10 and 13: the cells of the sheet, and the times.
pub fn timed(
    n: u64,
    sheet: &[u8],
    delay: f64,
    times: &[Time],
) -> Result<(Vec<Cell>, Sound), Refusal> {
    let n = inputs(n)?;
    let cells = cells(&FIRST, n, sheet)?;
    let sound = sound(n, &cells, delay, times)?;
    Ok((cells, sound))
}

/// In whole sixteenths where all times are, else in f64.
pub fn settle(n: u64, sheet: &[u8], delay: f64, times: &[Time]) -> Result<(f64, f64), Refusal> {
    let (cells, sound) = timed(n, sheet, delay, times)?;
    Ok(match sound.sixteenths() {
        Some(whole) => {
            let (earliest, latest) = whole.by_paths(&cells);
            (earliest as f64 / 16.0, latest as f64 / 16.0)
        }
        None => sound.cell_by_cell(&cells),
    })
}

fn answer(case: &Case, _: &mut [Vec<u8>]) -> Vec<u64> {
    let [n, delay] = case.numbers();
    let times = times::read(&case.bytes[1]);
    match settle(n, &case.bytes[0], f64::from_bits(delay), &times) {
        Ok((earliest, latest)) => vec![u64::from(DONE), 0, earliest.to_bits(), latest.to_bits()],
        Err(Refusal { number, place }) => vec![u64::from(number), place as u64, 0, 0],
    }
}

fn fresh(random: &mut Random) -> Fresh {
    let mut ask = timing::draw(random);
    sheet::spoil(random, &mut ask, &timing::FAULTS);
    let Ask { n, sheet, delay, times, tags, .. } = ask;
    Fresh { case: case(n, sheet, delay, &times), tags }
}
