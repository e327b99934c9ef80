//! Try a named split, told the edition: D as 32 bytes.

use super::try_split::{try_split, No};
use crate::case::{Call, Case, Field, Part, TABLE_BUFFER};
use crate::fresh::gate::{self, Ask};
use crate::fresh::Fresh;
use crate::random::Random;
use crate::refusals::DONE;
use crate::split::Split;
use crate::table::Table;

pub static CALL: Call = Call {
    code: 0x12,
    name: "try, edition",
    asks: &[
        Field::Number("edition", 8),
        Field::Number("n", 8),
        Field::Number("K", 8),
        Field::Number("A", 2),
        Field::Number("B", 2),
        Field::Bytes("table", TABLE_BUFFER),
        Field::Lent("room for H", TABLE_BUFFER),
    ],
    answers: &[
        Part::Number("number", 1),
        Part::Number("D, bytes 0 to 7", 8),
        Part::Number("8 to 15", 8),
        Part::Number("16 to 23", 8),
        Part::Number("24 to 31", 8),
        Part::Number("b", 2),
        Part::Number("columns", 2),
        Part::Lent(0),
    ],
    gives: &[0, 1, 2, 3, 4, 5, 6, 8],
    answer,
    fresh,
};

pub fn case([edition, n, k]: [u64; 3], split: Split, table: Vec<u8>, room: usize) -> Case {
    let numbers = vec![edition, n, k, u64::from(split.own), u64::from(split.shared)];
    Case { call: &CALL, numbers, bytes: vec![table], lent: vec![room] }
}

fn answer(case: &Case, lent: &mut [Vec<u8>]) -> Vec<u64> {
    let [edition, n, k, own, shared] = case.numbers();
    let split = Split { own: own as u16, shared: shared as u16 };
    match try_split([edition, n, k], split, &case.bytes[0], lent[0].len()) {
        Ok((d, h)) => {
            let h = h.to_bytes();
            lent[0][..h.len()].copy_from_slice(&h);
            let words = (0..4).map(|word| word_of(&d, word));
            [DONE.into()].into_iter().chain(words).chain([0, 0]).collect()
        }
        Err(No { number, at }) => {
            vec![u64::from(number), 0, 0, 0, 0, at.b as u64, at.columns as u64]
        }
    }
}

/// So many times 64 bits further on in a table, spare ones zero.
fn word_of(table: &Table, word: usize) -> u64 {
    let bit = |at: usize| table.bits.get(64 * word + at).copied().unwrap_or(false);
    (0..64).filter(|&at| bit(at)).map(|at| 1 << at).sum()
}

fn fresh(random: &mut Random) -> Fresh {
    let mut ask = gate::draw_in(random, true);
    ask.needed = Table::byte_length(ask.split.inputs_of_h(ask.n as usize));
    gate::lend_room(random, &mut ask, TABLE_BUFFER);
    let faults = [
        gate::SPARE,
        gate::SETS,
        gate::ROOM,
        gate::LENGTH,
        gate::OTHER_EDITION,
        gate::CELL_SIZE,
        gate::EDITION,
        gate::INPUTS,
    ];
    gate::spoil(random, &mut ask, &faults);
    let Ask { edition, n, k, split, table, room, tags, .. } = ask;
    Fresh { case: case([edition, n, k], split, table, room), tags }
}
