//! A load that is cut after so many stores.

use super::load::partly;
use crate::case::{Call, Case, Field, Part, CARD_BUFFER, SHEET_BUFFER};
use crate::fresh::cards::{self, Ask};
use crate::fresh::Fresh;
use crate::random::Random;

pub static CALL: Call = Call {
    code: 0x0F,
    name: "cut load",
    asks: &[
        Field::Number("stores", 8),
        Field::Number("desk", 8),
        Field::Number("n", 8),
        Field::Bytes("sheet", SHEET_BUFFER),
        Field::Handed("card", CARD_BUFFER),
    ],
    answers: &[Part::Number("number", 1), Part::Number("index", 1), Part::Lent(0)],
    gives: &[0, 1, 9, 10, 15, 19, 20],
    answer,
    fresh,
};

pub fn case(stores: u64, desk: u64, n: u64, sheet: Vec<u8>, card: Vec<u8>) -> Case {
    Case { call: &CALL, numbers: vec![stores, desk, n], bytes: vec![sheet, card], lent: Vec::new() }
}

fn answer(case: &Case, lent: &mut [Vec<u8>]) -> Vec<u64> {
    let [many, desk, n] = case.numbers();
    partly([desk, n], case, &mut lent[0], |stores| {
        let made = usize::try_from(many).unwrap_or(usize::MAX).min(stores.len());
        &stores[..made]
    })
}

fn fresh(random: &mut Random) -> Fresh {
    let Ask { desk, of, card, mut tags, .. } = cards::draw_load(random);
    let (many, name) = cards::any_store(random);
    tags.push(format!("a load cut after: {name}"));
    Fresh { case: case(many, desk, of.n, of.sheet, card), tags }
}
