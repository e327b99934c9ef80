//! The fewest cells of small tables, by building every network of a few cells.
//!
//! Nothing here knows of splits, trees or chains. A cell that gives 1 where its
//! inputs are all 0 may be flipped, and those that read it turned to suit: so it
//! is enough to build cells that give 0 there, and to take a table as its
//! complement if it has a 1 at assignment 0.

use std::collections::HashMap;

use crate::table::Table;

/// The tables of n inputs (up to 5) that up to so many cells of K inputs carry,
/// each with the fewest.
pub struct Reached {
    n: usize,
    k: usize,
    most: usize,
    fewest: HashMap<u32, usize>,
}

/// The table's number, or its complement's, so that it is 0 at assignment 0.
fn plain(table: &Table) -> u32 {
    let number = table.to_number() as u32;
    let full = Table::from_rule(table.inputs, |_| true).to_number() as u32;
    if number & 1 == 1 {
        full & !number
    } else {
        number
    }
}

fn inputs(n: usize) -> Vec<u32> {
    (0..n).map(|j| Table::from_rule(n, |x| x >> j & 1 == 1).to_number() as u32).collect()
}

/// Every choice of so many of the signals.
fn choices(signals: &[u32], many: usize) -> Vec<Vec<u32>> {
    if many == 0 {
        return vec![Vec::new()];
    }
    let mut list = Vec::new();
    for (at, &signal) in signals.iter().enumerate() {
        for rest in choices(&signals[at + 1..], many - 1) {
            list.push([&[signal][..], &rest].concat());
        }
    }
    list
}

/// Where the read signals stand at each entry of a cell but the first.
fn entries(reads: &[u32]) -> Vec<u32> {
    let place = |entry: usize| {
        let bits = reads.iter().enumerate();
        bits.fold(u32::MAX, |all, (i, &read)| all & if entry >> i & 1 == 1 { read } else { !read })
    };
    (1..1 << reads.len()).map(place).collect()
}

/// Every table of a cell that reads some of the signals, but for those that are there.
fn next(signals: &[u32], k: usize) -> Vec<u32> {
    let mut list = Vec::new();
    for reads in choices(signals, k) {
        let mut built = vec![0];
        for entry in entries(&reads) {
            built.extend(built.clone().iter().map(|table| table | entry));
        }
        list.extend(built);
    }
    list.sort_unstable();
    list.dedup();
    list.retain(|table| *table != 0 && !signals.contains(table));
    list
}

impl Reached {
    pub fn new(n: usize, k: usize, most: usize) -> Reached {
        let mut reached = Reached { n, k, most, fewest: HashMap::new() };
        // Nothing, and what an input says, take a cell each.
        for table in [&[0][..], &inputs(n)].concat() {
            reached.fewest.insert(table, 1);
        }
        reached.extend(&inputs(n), 1);
        reached
    }

    fn extend(&mut self, signals: &[u32], cells: usize) {
        for table in next(signals, self.k.min(signals.len())) {
            let fewest = self.fewest.entry(table).or_insert(cells);
            *fewest = cells.min(*fewest);
            if cells < self.most {
                self.extend(&[signals, &[table]].concat(), cells + 1);
            }
        }
    }

    /// Nothing if it takes more cells than were built.
    pub fn fewest(&self, table: &Table) -> Option<usize> {
        self.fewest.get(&plain(table)).copied()
    }

    /// Some of the tables, in their order.
    pub fn tables(&self, step: usize) -> Vec<Table> {
        let mut numbers: Vec<u32> = self.fewest.keys().copied().collect();
        numbers.sort_unstable();
        let table = |number: u32| Table::from_number(self.n, u64::from(number));
        numbers.into_iter().step_by(step.max(1)).map(table).collect()
    }
}

/// Every network of two cells of three inputs, to be asked whether a third carries a table.
pub struct Pairs {
    n: usize,
    cells: Vec<[u32; 2]>,
}

impl Pairs {
    pub fn new(n: usize) -> Pairs {
        let inputs = inputs(n);
        let with = |one: u32| next(&[&inputs[..], &[one]].concat(), 3);
        let pairs = |one: u32| with(one).into_iter().map(move |two| [one, two]);
        Pairs { n, cells: next(&inputs, 3).into_iter().flat_map(pairs).collect() }
    }

    /// Whether a third cell over the second's output and any two other signals
    /// carries the table: no entry of it may have to be 0 and 1 at once.
    pub fn carry(&self, table: &Table) -> bool {
        let number = plain(table);
        let full = Table::from_rule(self.n, |_| true).to_number() as u32;
        let mut others = inputs(self.n);
        others.push(0);
        self.cells.iter().any(|&[one, two]| {
            others[self.n] = one;
            let alike = |entry: u32| number & entry == 0 || number & entry == entry;
            let side = |read: u32, bit: usize| if bit == 1 { read } else { full & !read };
            (1..=self.n).any(|i| {
                others[..i].iter().any(|&other| {
                    (0..8).all(|entry| {
                        let pair = side(others[i], entry & 1) & side(other, entry >> 1 & 1);
                        alike(pair & side(two, entry >> 2))
                    })
                })
            })
        })
    }
}
