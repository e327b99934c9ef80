//! Look a three-input table up in the book.

use crate::book::least;
use crate::case::{Call, Case, Field, Part};
use crate::fresh::Fresh;
use crate::random::Random;

pub static CALL: Call = Call {
    code: 0x1A,
    name: "look up",
    asks: &[Field::Number("table", 1)],
    answers: &[Part::Number("entry", 1)],
    gives: &[0],
    answer,
    fresh,
};

pub fn case(table: u8) -> Case {
    Case { call: &CALL, numbers: vec![u64::from(table)], bytes: Vec::new(), lent: Vec::new() }
}

fn answer(case: &Case, _: &mut [Vec<u8>]) -> Vec<u64> {
    let [table] = case.numbers();
    vec![u64::from(least(table as u8))]
}

fn fresh(random: &mut Random) -> Fresh {
    Fresh { case: case(random.bits() as u8), tags: Vec::new() }
}
