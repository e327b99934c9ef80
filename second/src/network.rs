//! Running the cells of a sheet.

use crate::cell::Cell;
use crate::table::Table;

/// The gate's bit at assignment x: each cell in turn, the last is the output.
pub fn run(n: usize, cells: &[Cell], x: usize) -> bool {
    let mut signals: Vec<bool> = (0..n).map(|input| (x >> input) & 1 == 1).collect();
    for cell in cells {
        let mut entry = 0;
        for (place, &signal) in cell.reads.iter().enumerate() {
            if signals[signal] {
                entry |= 1 << place;
            }
        }
        signals.push(cell.table.bits[entry]);
    }
    signals.last().copied().unwrap_or(false)
}

/// The first record but the last that no later record reads.
pub fn first_unread(n: usize, cells: &[Cell]) -> Option<usize> {
    let read = |i: usize| cells[i + 1..].iter().any(|later| later.reads.contains(&(n + i)));
    (0..cells.len().saturating_sub(1)).find(|&i| !read(i))
}

/// The whole table, one assignment after the other.
pub fn rebuild(n: usize, cells: &[Cell]) -> Table {
    Table::from_rule(n, |x| run(n, cells, x))
}
