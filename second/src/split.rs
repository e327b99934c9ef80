//! A split: own set, shared set, the columns that decide it, and the one pair
//! of tables that answers it.

use std::collections::BTreeSet;

use crate::sets::{all, assignments, size};
use crate::table::Table;

#[derive(Clone, Copy, Debug, PartialEq, Eq)]
pub struct Split {
    pub own: u16,
    pub shared: u16,
}

impl Split {
    /// The rest: positions that are neither own nor shared.
    pub fn free(&self, inputs: usize) -> u16 {
        all(inputs) & !self.own & !self.shared
    }

    /// How many inputs H has: shared and free positions, and D's output.
    pub fn inputs_of_h(&self, inputs: usize) -> usize {
        inputs - size(self.own) + 1
    }
}

/// What is left of the table when the own and the shared inputs are those of
/// x: one bit for each assignment of the free ones.
pub fn column(table: &Table, x: usize, free: &[usize]) -> Vec<bool> {
    free.iter().map(|c| table.bits[x | c]).collect()
}

/// Gives each column of one b one of two colours; false if a third is needed.
fn two_colours(table: &Table, own: &[usize], b: usize, free: &[usize]) -> bool {
    let first = column(table, b, free);
    let mut other: Option<Vec<bool>> = None;
    for &a in own {
        let this = column(table, a | b, free);
        if this == first {
            continue;
        }
        match &other {
            None => other = Some(this),
            Some(known) if *known == this => {}
            Some(_) => return false,
        }
    }
    true
}

/// Only within one b does the number of columns matter, so each b starts afresh.
pub fn possible(table: &Table, split: Split) -> bool {
    let own = assignments(split.own);
    let free = assignments(split.free(table.inputs));
    assignments(split.shared).iter().all(|&b| two_colours(table, &own, b, &free))
}

/// Where a split breaks: the least b with too many different columns (more than
/// two, with one first cell), as its members in increasing position number it,
/// and how many it has.
#[derive(Clone, Copy, Debug, PartialEq, Eq)]
pub struct Break {
    pub b: usize,
    pub columns: usize,
}

/// Collects the different columns of each b; nothing if no b has more than `most`.
pub fn first_break(table: &Table, split: Split, most: usize) -> Option<Break> {
    let own = assignments(split.own);
    let free = assignments(split.free(table.inputs));
    let count = |b: usize| {
        let columns = own.iter().map(|a| column(table, a | b, &free));
        columns.collect::<BTreeSet<_>>().len()
    };
    let counts = assignments(split.shared).into_iter().map(count);
    counts.enumerate().map(|(b, columns)| Break { b, columns }).find(|at| at.columns > most)
}

/// The one fixed pair (D, H) that document 01 names, if the split is possible.
pub fn pair(table: &Table, split: Split) -> Option<(Table, Table)> {
    possible(table, split).then(|| (table_d(table, split), table_h(table, split)))
}

/// Walks all assignments in increasing order and stops at those that are 0
/// outside a set: they come in the order in which a table that reads the set's
/// members in increasing position counts its entries.
pub fn walk(inputs: usize, set: u16) -> impl Iterator<Item = usize> {
    (0..1usize << inputs).filter(move |x| x & !usize::from(set) == 0)
}

/// D reads own and shared members in increasing position. It is 0 where the
/// column equals the one for own assignment 0.
fn table_d(table: &Table, split: Split) -> Table {
    let free = assignments(split.free(table.inputs));
    let differs = |x: usize| {
        let b = x & usize::from(split.shared);
        column(table, x, &free) != column(table, b, &free)
    };
    let bits = walk(table.inputs, split.own | split.shared).map(differs).collect();
    Table { inputs: size(split.own | split.shared), bits }
}

/// H reads shared and free members in increasing position and D's output last.
/// With D at 0 it is the table at own assignment 0. With D at 1 it is the table
/// at the first own assignment whose column is another; where there is none,
/// at own assignment 0 again.
fn table_h(table: &Table, split: Split) -> Table {
    let free = assignments(split.free(table.inputs));
    let mut other = vec![0; 1 << table.inputs];
    for b in walk(table.inputs, split.shared) {
        let first = column(table, b, &free);
        let mut own = walk(table.inputs, split.own);
        other[b] = own.find(|a| column(table, a | b, &free) != first).unwrap_or(0);
    }
    let rest = !split.own & all(table.inputs);
    let at_zero = walk(table.inputs, rest).map(|x| table.bits[x]);
    let at_one =
        walk(table.inputs, rest).map(|x| table.bits[x | other[x & usize::from(split.shared)]]);
    Table { inputs: size(rest) + 1, bits: at_zero.chain(at_one).collect() }
}
