//! Made sheets padded with a cell that nobody reads, at every place; and with
//! two, apart and one reading the other.

use super::every_bit::{sheets as made_sheets, Made};
use super::sheets::padded;
use super::Fresh;
use crate::calls;
use crate::cell::{read_sheet, write_sheet, Cell, BENCH, FIRST, SECOND};
use crate::random::Random;
use crate::table::Table;

/// A sheet that gives a table, and the first record that nobody reads.
pub struct Padded {
    pub table: Table,
    pub cells: Vec<Cell>,
    pub first: usize,
    name: &'static str,
}

pub fn sheets(random: &mut Random) -> Vec<Padded> {
    let mut list = Vec::new();
    for Made { table, sheet } in made_sheets(random) {
        let n = table.inputs;
        let cells = read_sheet(n, &sheet).expect("a made sheet");
        let mut push = |cells, first, name| {
            list.push(Padded { table: table.clone(), cells, first, name });
        };
        for at in 0..cells.len() {
            let one = padded(random, n, &cells, at);
            let again = random.between(at, cells.len());
            let mut two = padded(random, n, &one, again);
            two[again] = Cell::numbered(vec![random.below(n)], 2);
            // Right behind the first, which is read now; the second is not.
            let mut reads = padded(random, n, &one, at + 1);
            reads[at + 1] = Cell::numbered(vec![n + at], 1);
            push(one, at, "one");
            push(two, at, "two");
            push(reads, at + 1, "one that reads another");
        }
    }
    list
}

/// The calls that refuse such a sheet, and those that have a lower number for it.
pub fn cases(random: &mut Random) -> Vec<Fresh> {
    let mut list = Vec::new();
    for Padded { table, cells, name, .. } in sheets(random) {
        let (n, sheet) = (table.inputs as u64, write_sheet(&cells));
        let mut other = table.clone();
        let x = random.below(other.bits.len());
        other.bits[x] = !other.bits[x];
        let second = SECOND.write_sheet(BENCH, &cells);
        let cases = [
            calls::all_that_read(&FIRST, [n, x as u64], &table.to_bytes(), &sheet),
            calls::all_that_read(&SECOND, [n, x as u64], &table.to_bytes(), &second),
            vec![
                calls::run::case(n, 1 << n, sheet.clone()),
                calls::run_in::case(SECOND.told, n, 1 << n, second),
                calls::check::case(n, other.to_bytes(), sheet),
            ],
        ];
        let tags = vec![format!("a cell that nobody reads: {name}")];
        let cases = cases.into_iter().flatten();
        list.extend(cases.map(|case| Fresh { case, tags: tags.clone() }));
    }
    list
}
