//! The shorter of two sheets for one table: which, its length, and the number of
//! the call beside.

use super::check::check;
use crate::case::{Call, Case, Field, Part, SHEET_BUFFER, TABLE_BUFFER};
use crate::fresh::two_sheets::{self, Two};
use crate::fresh::Fresh;
use crate::random::Random;
use crate::refusals::DONE;

pub static CALL: Call = Call {
    code: 0x09,
    name: "shorter",
    asks: &[
        Field::Number("n", 8),
        Field::Bytes("table", TABLE_BUFFER),
        Field::Bytes("first", SHEET_BUFFER),
        Field::Bytes("second", SHEET_BUFFER),
    ],
    answers: &[Part::Number("which", 1), Part::Number("length", 2), Part::Number("number", 1)],
    gives: &[0, 1, 3, 4, 9, 10, 12, 15],
    answer,
    fresh,
};

pub fn case(n: u64, table: Vec<u8>, first: Vec<u8>, second: Vec<u8>) -> Case {
    Case { call: &CALL, numbers: vec![n], bytes: vec![table, first, second], lent: Vec::new() }
}

/// Of those that are accepted the one with fewer records, the first on a tie:
/// 1 or 2, with its length. If neither is, the refusal of the first.
pub fn shorter(n: u64, table: &[u8], sheets: [&[u8]; 2]) -> Result<(usize, usize), u8> {
    let told = sheets.map(|sheet| check(n, table, sheet));
    match (told[0], told[1]) {
        (Ok(()), Ok(())) if sheets[1].len() < sheets[0].len() => Ok((2, sheets[1].len())),
        (Ok(()), _) => Ok((1, sheets[0].len())),
        (_, Ok(())) => Ok((2, sheets[1].len())),
        (Err(no), Err(_)) => Err(no.number),
    }
}

fn answer(case: &Case, _: &mut [Vec<u8>]) -> Vec<u64> {
    let [n] = case.numbers();
    match shorter(n, &case.bytes[0], [&case.bytes[1], &case.bytes[2]]) {
        Ok((which, length)) => vec![which as u64, length as u64, u64::from(DONE)],
        Err(number) => vec![0, 0, u64::from(number)],
    }
}

fn fresh(random: &mut Random) -> Fresh {
    let Two { n, table, first, second, mut tags } = two_sheets::draw(random);
    tags.push(match shorter(n, &table, [&first, &second]) {
        Ok((which, _)) => format!("of two sheets: {which}"),
        Err(_) => "of two sheets: neither".to_string(),
    });
    Fresh { case: case(n, table, first, second), tags }
}
