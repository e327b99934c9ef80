//! Turn one three-input table into another: the first way, if there is one.

use crate::book::{first_way, turned, ways, Way};
use crate::case::{Call, Case, Field, Part};
use crate::fresh::Fresh;
use crate::random::Random;
use crate::refusals::{DONE, NO_TURN};

pub static CALL: Call = Call {
    code: 0x19,
    name: "turn",
    asks: &[Field::Number("first", 1), Field::Number("second", 1)],
    answers: &[
        Part::Number("number", 1),
        Part::Number("output flip", 1),
        Part::Number("mask", 1),
        Part::Number("p0", 1),
        Part::Number("p1", 1),
        Part::Number("p2", 1),
    ],
    gives: &[0, 21],
    answer,
    fresh,
};

pub fn case(first: u8, second: u8) -> Case {
    let numbers = vec![u64::from(first), u64::from(second)];
    Case { call: &CALL, numbers, bytes: Vec::new(), lent: Vec::new() }
}

fn answer(case: &Case, _: &mut [Vec<u8>]) -> Vec<u64> {
    let [first, second] = case.numbers();
    let told = match first_way(first as u8, second as u8) {
        Some(Way { flip, mask, p: [p0, p1, p2] }) => [DONE, u8::from(flip), mask, p0, p1, p2],
        None => [NO_TURN, 0, 0, 0, 0, 0],
    };
    told.iter().copied().map(u64::from).collect()
}

/// A table and what some way makes of it, or any two.
fn fresh(random: &mut Random) -> Fresh {
    let first = random.bits() as u8;
    let (second, tag) = if random.one_in(2) {
        (turned(&random.pick(&ways()), first), "book: a table turned")
    } else {
        (random.bits() as u8, "book: any two tables")
    };
    Fresh { case: case(first, second), tags: vec![tag.to_string()] }
}
