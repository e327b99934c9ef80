//! Two sheets for one table, each sound or spoiled.

use super::sheet::{self, Ask, Fault};
use crate::cell::{read_sheet, write_sheet_for, Cell, FIRST, MOST_READS, MOST_RECORDS};
use crate::chain::chain;
use crate::network::rebuild;
use crate::random::Random;
use crate::table::Table;

pub struct Two {
    pub n: u64,
    pub table: Vec<u8>,
    pub first: Vec<u8>,
    pub second: Vec<u8>,
    pub tags: Vec<String>,
}

/// What may befall either sheet, and then both of them or the table.
const OF_A_SHEET: [Fault; 4] = [sheet::PADDED, sheet::RECORD, sheet::RECORD, sheet::LENGTH];
const OF_BOTH: [Fault; 5] =
    [sheet::SPARE, sheet::DIFFERENCE, sheet::DIFFERENCE, sheet::TABLE_LENGTH, sheet::INPUTS];

pub fn draw(random: &mut Random) -> Two {
    let n = sheet::walked_inputs(random);
    let mut ask = sheet::draw_with_table(random, &FIRST, n);
    let (other, name) = equal(random, n, &ask.sheet);
    ask.tags.push(format!("the other sheet: {name}"));
    let mut other = Ask { sheet: other, tags: Vec::new(), ..ask.clone() };
    super::spoil(random, &mut ask, &OF_A_SHEET, 7);
    super::spoil(random, &mut other, &OF_A_SHEET, 7);
    if random.coin() {
        std::mem::swap(&mut ask.sheet, &mut other.sheet);
    }
    // Where faults are planned, those of both are numbered behind those of a sheet.
    let planned = random.planned;
    random.planned = planned.map(|two| two.map(|at| at.wrapping_sub(OF_A_SHEET.len())));
    super::spoil(random, &mut ask, &OF_BOTH, 9);
    random.planned = planned;
    let Ask { n, table, sheet, mut tags, .. } = ask;
    tags.extend(other.tags);
    tags.sort();
    tags.dedup();
    Two { n, table, first: sheet, second: other.sheet, tags }
}

/// Another sheet, of any desk, that gives the same table: as long, longer, or made anew, and
/// then perhaps shorter. Now and then one that gives any other.
pub fn equal(random: &mut Random, n: usize, sheet: &[u8]) -> (Vec<u8>, &'static str) {
    let cells = read_sheet(n, sheet).expect("a sound sheet");
    let (cells, name) = match random.below(8) {
        0 => (cells, "the same"),
        1 | 2 => (turned(random, n, cells), "as long"),
        3 | 4 => (longer(random, n, cells), "longer"),
        5 | 6 if n <= 8 => (made_anew(random, n, cells), "made anew"),
        5 | 6 => (turned(random, n, cells), "as long"),
        _ => return (sheet::draw(random, &FIRST, n).sheet, "any other"),
    };
    (write_sheet_for(sheet::any_desk(random), &cells), name)
}

/// One cell gives the opposite, and those that read it take it so.
fn turned(random: &mut Random, n: usize, mut cells: Vec<Cell>) -> Vec<Cell> {
    if cells.len() == 1 {
        return cells;
    }
    let at = random.below(cells.len() - 1);
    for bit in &mut cells[at].table.bits {
        *bit = !*bit;
    }
    for cell in &mut cells[at + 1..] {
        if let Some(place) = cell.reads.iter().position(|&signal| signal == n + at) {
            let old = cell.table.clone();
            cell.table = Table::from_rule(old.inputs, |entry| old.bits[entry ^ (1 << place)]);
        }
    }
    cells
}

/// Cells at the end that hand the output on, or flip it twice.
fn longer(random: &mut Random, n: usize, mut cells: Vec<Cell>) -> Vec<Cell> {
    let left = MOST_RECORDS - cells.len();
    for _ in 0..random.between(left.min(1), left) / 2 {
        let number = random.pick(&[1, 2]);
        for _ in 0..2 {
            let reads = vec![n + cells.len() - 1];
            cells.push(Cell::numbered(reads, number));
        }
    }
    cells
}

/// Made by a chain for some K; where it gets stuck, the same.
fn made_anew(random: &mut Random, n: usize, cells: Vec<Cell>) -> Vec<Cell> {
    let k = random.pick(&[2, 3, 4, 5, MOST_READS, MOST_READS]);
    chain(&rebuild(n, &cells), k).unwrap_or(cells)
}
