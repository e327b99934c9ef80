//! Which tables have a tree of two-input nodes, by brute force: every tree is
//! built, or every way to part the inputs at the top is looked at.
//!
//! Nothing here knows of splits, cells or chains.

use std::collections::HashSet;

use crate::random::Random;
use crate::sets::{all, assignments, members, size};
use crate::table::Table;

/// Up to so many inputs every tree is built.
pub const MOST_BUILT: usize = 5;

/// What any function of two bits makes of two tables, as numbers: bit 0 of the
/// function is its value at 0 and 0, bit 1 at 1 and 0, bit 2 at 0 and 1.
fn node(function: u64, one: u64, two: u64) -> u64 {
    let places = [!one & !two, one & !two, !one & two, one & two];
    let chosen = places.iter().enumerate().filter(|(at, _)| function >> at & 1 == 1);
    chosen.fold(0, |table, (_, place)| table | place)
}

/// For each set of some inputs, the tables of all trees that read each of its
/// members once and no other input.
pub struct Trees {
    inputs: usize,
    tables: Vec<HashSet<u64>>,
}

impl Trees {
    pub fn new(inputs: usize) -> Trees {
        assert!(inputs <= MOST_BUILT);
        let mut trees = Trees { inputs, tables: Vec::new() };
        // The parts of a set have smaller masks: they are there when its turn comes.
        for set in 0..=all(inputs) {
            trees.tables.push(trees.built_over(set));
        }
        trees
    }

    fn built_over(&self, set: u16) -> HashSet<u64> {
        let full = Table::from_rule(self.inputs, |_| true).to_number();
        if size(set) < 2 {
            // The constants, also of a node over an input and a constant; and
            // the input itself, plain and flipped.
            let inputs = members(set).into_iter();
            let plain = inputs.map(|j| Table::from_rule(self.inputs, |x| x >> j & 1 == 1));
            let both = plain.map(|table| table.to_number()).flat_map(|table| [table, full ^ table]);
            return both.chain([0, full]).collect();
        }
        // Either child may read any part, but for none and all.
        let parts = assignments(set).into_iter().map(|part| part as u16);
        let mut built = HashSet::new();
        for part in parts.filter(|&part| part != 0 && part != set) {
            for &one in &self.tables[usize::from(part)] {
                for &two in &self.tables[usize::from(set & !part)] {
                    built.extend((0..16).map(|function| node(function, one, two) & full));
                }
            }
        }
        built
    }

    /// Whether some tree reads each of the inputs that count once, and no
    /// other, and computes the table.
    pub fn computes(&self, table: &Table) -> bool {
        self.tables[usize::from(table.counting())].contains(&table.to_number())
    }

    /// Every table that has a tree.
    pub fn every(&self) -> Vec<Table> {
        let numbers: HashSet<u64> = self.tables.iter().flatten().copied().collect();
        let mut numbers: Vec<u64> = numbers.into_iter().collect();
        numbers.sort();
        let tables = numbers.into_iter().map(|number| Table::from_number(self.inputs, number));
        tables.filter(|table| self.computes(table)).collect()
    }

    /// Whether so many tries find inputs of a larger table that can be fixed, as
    /// they stand in an assignment, such that what is left has no tree. Then the
    /// table has none: a tree with an input fixed is a tree of what is left.
    pub fn refuted(&self, random: &mut Random, table: &Table, near: usize, tries: usize) -> bool {
        (0..tries).any(|_| {
            let left = random.part_of(all(table.inputs), self.inputs);
            let fixed = near & !usize::from(left);
            let at: Vec<usize> = assignments(left).into_iter().map(|x| x | fixed).collect();
            !self.computes(&Table::from_rule(self.inputs, |x| table.bits[at[x]]))
        })
    }
}

/// Whether a table that depends on each of its inputs has a tree, from the top: a
/// constant, or one input, or some way to part the inputs such that the table is
/// a function of two bits, each of one part and with a tree of its own.
pub fn from_the_top(table: &Table) -> bool {
    if table.inputs < 2 {
        return true;
    }
    // Input 0 is in the second part; the parts could change places otherwise.
    let parts = (2..=all(table.inputs)).step_by(2);
    parts.into_iter().any(|part| {
        let rest = all(table.inputs) & !part;
        match (bit_of(table, part), bit_of(table, rest)) {
            (Some(one), Some(two)) => from_the_top(&one) && from_the_top(&two),
            _ => false,
        }
    })
}

/// The one bit of a part through which the table depends on it: whether what is
/// left of the table differs from what is left at 0. Nothing if one bit won't do.
fn bit_of(table: &Table, part: u16) -> Option<Table> {
    let others = assignments(all(table.inputs) & !part);
    let same = |x: usize, y: usize| others.iter().all(|z| table.bits[x | z] == table.bits[y | z]);
    let mut other = None;
    let mut bits = Vec::new();
    for x in assignments(part) {
        let differs = !same(x, 0);
        if differs && !same(x, *other.get_or_insert(x)) {
            return None;
        }
        bits.push(differs);
    }
    Some(Table { inputs: size(part), bits })
}
