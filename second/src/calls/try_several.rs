//! Try a named split with several first cells: their tables as numbers, H into a
//! lent table; where it breaks, if it does.

use super::try_split::No;
use crate::case::{Call, Case, Field, Part, TABLE_BUFFER};
use crate::fresh::gate::{self, Ask};
use crate::fresh::several;
use crate::fresh::Fresh;
use crate::random::Random;
use crate::refusals::{gate, DONE, NO_ROOM, NO_SETS, NO_SPLIT};
use crate::sets::{all, size};
use crate::several::{Several, MOST_FIRST};
use crate::split::{first_break, Split};
use crate::table::Table;

pub static CALL: Call = Call {
    code: 0x10,
    name: "try several",
    asks: &[
        Field::Number("n", 8),
        Field::Number("K", 8),
        Field::Number("r", 8),
        Field::Number("A", 2),
        Field::Number("B", 2),
        Field::Bytes("table", TABLE_BUFFER),
        Field::Lent("room for H", TABLE_BUFFER),
    ],
    answers: &[
        Part::Number("number", 1),
        Part::Number("D of the first cell", 8),
        Part::Number("of the second", 8),
        Part::Number("of the third", 8),
        Part::Number("b", 2),
        Part::Number("columns", 2),
        Part::Lent(0),
    ],
    gives: &[0, 1, 2, 3, 4, 5, 6, 8],
    answer,
    fresh,
};

pub fn case([n, k, r]: [u64; 3], split: Split, table: Vec<u8>, room: usize) -> Case {
    let numbers = vec![n, k, r, u64::from(split.own), u64::from(split.shared)];
    Case { call: &CALL, numbers, bytes: vec![table], lent: vec![room] }
}

fn try_several(
    [n, k, r]: [u64; 3],
    split: Split,
    table: &[u8],
    room: usize,
) -> Result<(Vec<Table>, Table), No> {
    let (gate, k) = gate(n, k, table)?;
    let Split { own, shared } = split;
    let outside = (own | shared) & !all(gate.inputs) != 0;
    let overlap = own & shared != 0;
    let r = match usize::try_from(r) {
        Ok(r) if (1..=MOST_FIRST).contains(&r) => r,
        _ => return Err(NO_SETS.into()),
    };
    if outside || overlap || size(own) <= r || size(own) + size(shared) > k {
        return Err(NO_SETS.into());
    }
    let several = Several { r, split };
    if room < Table::byte_length(several.inputs_of_h(gate.inputs)) {
        return Err(NO_ROOM.into());
    }
    match first_break(&gate, split, 1 << r) {
        Some(at) => Err(No { number: NO_SPLIT, at }),
        None => Ok(several.tables(&gate).expect("a split that nothing breaks")),
    }
}

fn answer(case: &Case, lent: &mut [Vec<u8>]) -> Vec<u64> {
    let [n, k, r, own, shared] = case.numbers();
    let split = Split { own: own as u16, shared: shared as u16 };
    match try_several([n, k, r], split, &case.bytes[0], lent[0].len()) {
        Ok((first, h)) => {
            let h = h.to_bytes();
            lent[0][..h.len()].copy_from_slice(&h);
            let mut d: Vec<u64> = first.iter().map(Table::to_number).collect();
            d.resize(MOST_FIRST, 0);
            vec![u64::from(DONE), d[0], d[1], d[2], 0, 0]
        }
        Err(No { number, at }) => vec![u64::from(number), 0, 0, 0, at.b as u64, at.columns as u64],
    }
}

fn fresh(random: &mut Random) -> Fresh {
    let mut ask = several::draw(random, 16);
    gate::lend_room(random, &mut ask, TABLE_BUFFER);
    let faults = [
        gate::SPARE,
        gate::SETS,
        several::NOT_ABOVE,
        several::FIRST_CELLS,
        gate::ROOM,
        gate::LENGTH,
        gate::CELL_SIZE,
        gate::INPUTS,
    ];
    gate::spoil(random, &mut ask, &faults);
    let Ask { n, k, r, split, table, room, tags, .. } = ask;
    Fresh { case: case([n, k, r], split, table, room), tags }
}
