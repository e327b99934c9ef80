//! Load a desk of a card with a sheet.

use crate::card::{put, stores, Store, CARD_BYTES, DESKS};
use crate::case::{Call, Case, Field, Part, CARD_BUFFER, SHEET_BUFFER};
use crate::cell::{desk_of, read_records, FIRST, RECORD_BYTES};
use crate::fresh::cards::{self, Ask};
use crate::fresh::Fresh;
use crate::random::Random;
use crate::refusals::{bad_record, each_read, inputs, whole_records, Refusal};
use crate::refusals::{DONE, NO_CARD, NO_DESK};

pub static CALL: Call = Call {
    code: 0x0D,
    name: "load",
    asks: &[
        Field::Number("desk", 8),
        Field::Number("n", 8),
        Field::Bytes("sheet", SHEET_BUFFER),
        Field::Handed("card", CARD_BUFFER),
    ],
    answers: &[Part::Number("number", 1), Part::Number("index", 1), Part::Lent(0)],
    gives: &[0, 1, 9, 10, 15, 19, 20],
    answer,
    fresh,
};

pub fn case(desk: u64, n: u64, sheet: Vec<u8>, card: Vec<u8>) -> Case {
    Case { call: &CALL, numbers: vec![desk, n], bytes: vec![sheet, card], lent: Vec::new() }
}

/// Lines 20 and 19, as far as a load and a run have them in common: the card,
/// then the desk, 1 to 4.
pub fn desk_on(card: &[u8], desk: u64) -> Result<usize, u8> {
    if card.len() != CARD_BYTES {
        return Err(NO_CARD);
    }
    match usize::try_from(desk) {
        Ok(desk) if (1..=DESKS).contains(&desk) => Ok(desk),
        _ => Err(NO_DESK),
    }
}

/// The stores of a load, in the order of the cards' own lines.
pub fn load(desk: u64, n: u64, sheet: &[u8], card: &[u8]) -> Result<Vec<Store>, Refusal> {
    let desk = desk_on(card, desk)?;
    if sheet.len() >= RECORD_BYTES && usize::from(desk_of(sheet)) != desk {
        return Err(NO_DESK.into());
    }
    let n = inputs(n)?;
    whole_records(&FIRST, sheet)?;
    let cells = read_records(n, desk as u8, sheet).map_err(bad_record)?;
    each_read(n, &cells)?;
    Ok(stores(desk, n, sheet))
}

/// The load's number and index, with some of its stores made on the card.
pub fn partly(
    [desk, n]: [u64; 2],
    case: &Case,
    card: &mut [u8],
    made: impl Fn(&[Store]) -> &[Store],
) -> Vec<u64> {
    match load(desk, n, &case.bytes[0], card) {
        Ok(stores) => {
            put(card, made(&stores));
            vec![u64::from(DONE), 0]
        }
        Err(Refusal { number, place }) => vec![u64::from(number), place as u64],
    }
}

fn answer(case: &Case, lent: &mut [Vec<u8>]) -> Vec<u64> {
    partly(case.numbers(), case, &mut lent[0], |stores| stores)
}

fn fresh(random: &mut Random) -> Fresh {
    let Ask { desk, of, card, tags, .. } = cards::draw_load(random);
    Fresh { case: case(desk, of.n, of.sheet, card), tags }
}
