//! Try a named split: D as a number, H into a lent table; where it breaks, if it does.

use crate::case::{Call, Case, Field, Part, TABLE_BUFFER};
use crate::cell::FIRST;
use crate::fresh::gate::{self, Ask};
use crate::fresh::Fresh;
use crate::random::Random;
use crate::refusals::{gate_in, DONE, NO_ROOM, NO_SETS, NO_SPLIT};
use crate::sets::{all, size};
use crate::split::{first_break, pair, Break, Split};
use crate::table::Table;

pub static CALL: Call = Call {
    code: 0x01,
    name: "try",
    asks: &[
        Field::Number("n", 8),
        Field::Number("K", 8),
        Field::Number("A", 2),
        Field::Number("B", 2),
        Field::Bytes("table", TABLE_BUFFER),
        Field::Lent("room for H", TABLE_BUFFER),
    ],
    answers: &[
        Part::Number("number", 1),
        Part::Number("D", 8),
        Part::Number("b", 2),
        Part::Number("columns", 2),
        Part::Lent(0),
    ],
    gives: &[0, 1, 2, 3, 4, 5, 6, 8],
    answer,
    fresh,
};

pub fn case(n: u64, k: u64, split: Split, table: Vec<u8>, room: usize) -> Case {
    let numbers = vec![n, k, u64::from(split.own), u64::from(split.shared)];
    Case { call: &CALL, numbers, bytes: vec![table], lent: vec![room] }
}

/// A refusal: its number, and where the split breaks if it is 8.
pub struct No {
    pub number: u8,
    pub at: Break,
}

impl From<u8> for No {
    fn from(number: u8) -> No {
        No { number, at: Break { b: 0, columns: 0 } }
    }
}

/// D and H, for numbers that are the edition, n and K.
pub fn try_split(
    numbers: [u64; 3],
    split: Split,
    table: &[u8],
    room: usize,
) -> Result<(Table, Table), No> {
    let (_, gate, k) = gate_in(numbers, table)?;
    let Split { own, shared } = split;
    let outside = (own | shared) & !all(gate.inputs) != 0;
    let overlap = own & shared != 0;
    if outside || overlap || size(own) < 2 || size(own) + size(shared) > k {
        return Err(NO_SETS.into());
    }
    if room < Table::byte_length(split.inputs_of_h(gate.inputs)) {
        return Err(NO_ROOM.into());
    }
    match first_break(&gate, split, 2) {
        Some(at) => Err(No { number: NO_SPLIT, at }),
        None => Ok(pair(&gate, split).expect("a split that nothing breaks")),
    }
}

fn answer(case: &Case, lent: &mut [Vec<u8>]) -> Vec<u64> {
    let [n, k, own, shared] = case.numbers();
    let split = Split { own: own as u16, shared: shared as u16 };
    match try_split([FIRST.told, n, k], split, &case.bytes[0], lent[0].len()) {
        Ok((d, h)) => {
            let h = h.to_bytes();
            lent[0][..h.len()].copy_from_slice(&h);
            vec![u64::from(DONE), d.to_number(), 0, 0]
        }
        Err(No { number, at }) => vec![u64::from(number), 0, at.b as u64, at.columns as u64],
    }
}

fn fresh(random: &mut Random) -> Fresh {
    let mut ask = gate::draw(random, true);
    ask.needed = Table::byte_length(ask.split.inputs_of_h(ask.n as usize));
    gate::lend_room(random, &mut ask, TABLE_BUFFER);
    let faults = [gate::SPARE, gate::SETS, gate::ROOM, gate::LENGTH, gate::CELL_SIZE, gate::INPUTS];
    gate::spoil(random, &mut ask, &faults);
    let Ask { n, k, split, table, room, tags, .. } = ask;
    Fresh { case: case(n, k, split, table, room), tags }
}
