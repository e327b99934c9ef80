//! A lower bound on the cells of a table: so many it is known to need.

use crate::carry::Networks;
use crate::sets::size;
use crate::table::Table;
use crate::trees::from_the_top;

/// One where a cell reads all inputs that count; two where two cells carry the
/// table; else what reading every input that counts takes, three at least. With
/// K = 2 a table that is no tree needs as many cells as inputs count.
pub fn least(table: &Table, k: usize) -> usize {
    let counting = table.counting();
    let many = size(counting);
    if many <= k {
        return 1;
    }
    let left = table.over(counting);
    if k == 2 && !from_the_top(&left) {
        return many;
    }
    if two_can_read(many, k) && Networks::new(many, k).two(&left) {
        return 2;
    }
    enough_to_read(many, k).max(3)
}

/// The first of two cells reads K inputs, the second one less and the first's output.
fn two_can_read(inputs: usize, k: usize) -> bool {
    inputs < 2 * k
}

/// The least m for which m cells can read so many inputs: each but the last is
/// read itself, so it brings K - 1 more.
fn enough_to_read(inputs: usize, k: usize) -> usize {
    let can = |cells: &usize| inputs <= cells * (k - 1) + 1;
    (1..).find(can).expect("some number of cells can")
}
