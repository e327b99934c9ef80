//! The slack: a deadline in sixteenths less the output's latest time.

use super::settle::timed;
use crate::case::{Call, Case, Field, Part, SHEET_BUFFER};
use crate::fresh::sheet::{self, Ask};
use crate::fresh::timing;
use crate::fresh::Fresh;
use crate::random::Random;
use crate::refusals::{Refusal, DONE, NO_SLACK};
use crate::times::{self, Time, TIMES_BYTES};

/// The greatest deadline; the least is as far below 0.
pub const MOST_DEADLINE: i64 = 1_048_576;

pub static CALL: Call = Call {
    code: 0x08,
    name: "slack",
    asks: &[
        Field::Number("n", 8),
        Field::Bytes("sheet", SHEET_BUFFER),
        Field::Number("delay", 8),
        Field::Fixed("times", TIMES_BYTES, times::shown),
        Field::Number("deadline", 8),
    ],
    answers: &[Part::Number("number", 1), Part::Number("index", 1), Part::Number("slack", 8)],
    gives: &[0, 1, 9, 10, 13, 14],
    answer,
    fresh,
};

pub fn case(n: u64, sheet: Vec<u8>, delay: f64, times: &[Time], deadline: i64) -> Case {
    let numbers = vec![n, delay.to_bits(), deadline as u64];
    Case { call: &CALL, numbers, bytes: vec![sheet, times::write(times)], lent: Vec::new() }
}

pub fn slack(
    n: u64,
    sheet: &[u8],
    delay: f64,
    times: &[Time],
    deadline: i64,
) -> Result<i64, Refusal> {
    let (cells, sound) = timed(n, sheet, delay, times)?;
    let in_range = (-MOST_DEADLINE..=MOST_DEADLINE).contains(&deadline);
    match sound.sixteenths() {
        Some(whole) if in_range => Ok(deadline - whole.by_paths(&cells).1),
        _ => Err(NO_SLACK.into()),
    }
}

fn answer(case: &Case, _: &mut [Vec<u8>]) -> Vec<u64> {
    let [n, delay, deadline] = case.numbers();
    let times = times::read(&case.bytes[1]);
    match slack(n, &case.bytes[0], f64::from_bits(delay), &times, deadline as i64) {
        Ok(slack) => vec![u64::from(DONE), 0, slack as u64],
        Err(Refusal { number, place }) => vec![u64::from(number), place as u64, 0],
    }
}

fn fresh(random: &mut Random) -> Fresh {
    let mut ask = timing::draw_in_sixteenths(random);
    sheet::spoil(random, &mut ask, &timing::SLACK_FAULTS);
    let Ask { n, sheet, delay, times, deadline, tags, .. } = ask;
    Fresh { case: case(n, sheet, delay, &times, deadline), tags }
}
