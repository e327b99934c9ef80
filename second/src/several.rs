//! Several first cells: r of them read the same own and shared inputs, and H
//! reads all their outputs.

use std::cmp::Reverse;
use std::sync::Mutex;

use crate::best::{candidates, order};
use crate::sets::{all, assignments, size};
use crate::split::{column, walk, Split};
use crate::table::Table;

/// The most first cells there may be.
pub const MOST_FIRST: usize = 3;

/// A split, and how many first cells read its own and shared inputs.
#[derive(Clone, Copy, Debug, PartialEq, Eq)]
pub struct Several {
    pub r: usize,
    pub split: Split,
}

/// The different columns of one b in the order in which they first appear as A's
/// assignments go up, each told by the assignment of A where it does; nothing
/// once they are more than so many.
fn first_seen(
    table: &Table,
    own: &[usize],
    b: usize,
    free: &[usize],
    most: usize,
) -> Option<Vec<usize>> {
    let mut seen: Vec<(usize, Vec<bool>)> = Vec::new();
    for &a in own {
        let this = column(table, a | b, free);
        if seen.iter().all(|(_, known)| *known != this) {
            seen.push((a, this));
        }
        if seen.len() > most {
            return None;
        }
    }
    Some(seen.into_iter().map(|(a, _)| a).collect())
}

impl Several {
    /// How many inputs H has: shared and free positions, and r outputs.
    pub fn inputs_of_h(&self, inputs: usize) -> usize {
        inputs - size(self.split.own) + self.r
    }

    /// At most 2^r different columns for each b.
    pub fn possible(&self, table: &Table) -> bool {
        let own = assignments(self.split.own);
        let free = assignments(self.split.free(table.inputs));
        let mut shared = assignments(self.split.shared).into_iter();
        shared.all(|b| first_seen(table, &own, b, &free, 1 << self.r).is_some())
    }

    /// The tables of the first cells, the first cell's first, and H, if the split is possible.
    pub fn tables(&self, table: &Table) -> Option<(Vec<Table>, Table)> {
        let Several { r, split } = *self;
        let n = table.inputs;
        let (own, free) = (assignments(split.own), assignments(split.free(n)));
        let mut seen = vec![Vec::new(); 1 << n];
        for b in assignments(split.shared) {
            seen[b] = first_seen(table, &own, b, &free, 1 << r)?;
        }
        let both = split.own | split.shared;
        let code = |x: usize| {
            let b = x & usize::from(split.shared);
            let this = column(table, x, &free);
            seen[b].iter().position(|a| column(table, a | b, &free) == this).expect("its column")
        };
        let codes: Vec<usize> = walk(n, both).map(code).collect();
        let first = (0..r).map(|t| Table {
            inputs: size(both),
            bits: codes.iter().map(|code| code >> t & 1 == 1).collect(),
        });
        let rest = all(n) & !split.own;
        // A code that no column has gives column 0, which is that of A's assignment 0.
        let bit = |code: usize, x: usize| {
            let a = seen[x & usize::from(split.shared)].get(code).copied().unwrap_or(0);
            table.bits[x | a]
        };
        let bits = (0..1 << r).flat_map(|code| walk(n, rest).map(move |x| (code, x)));
        let bits = bits.map(|(code, x)| bit(code, x)).collect();
        Some((first.collect(), Table { inputs: size(rest) + r, bits }))
    }
}

/// The largest |A| - r, then the least r, then document 01's order.
pub fn order_of_several(
    several: &Several,
) -> (Reverse<usize>, usize, (Reverse<usize>, usize, u16, u16)) {
    let Several { r, split } = several;
    (Reverse(size(split.own) - r), *r, order(split))
}

/// Every choice for n inputs and cell size K, best first.
fn list(n: usize, k: usize) -> Vec<Several> {
    let mut list = Vec::new();
    for r in 1..=MOST_FIRST {
        let above = candidates(n, k).iter().filter(|split| size(split.own) > r);
        list.extend(above.map(|&split| Several { r, split }));
    }
    list.sort_by_key(order_of_several);
    list
}

/// The same list, made once for each n and K and then kept.
pub fn choices(n: usize, k: usize) -> &'static [Several] {
    type Kept = ((usize, usize), &'static [Several]);
    static KEPT: Mutex<Vec<Kept>> = Mutex::new(Vec::new());
    let mut kept = KEPT.lock().expect("nobody failed with it");
    if let Some((_, list)) = kept.iter().find(|(sizes, _)| *sizes == (n, k)) {
        return list;
    }
    let list: &'static [Several] = Box::leak(list(n, k).into_boxed_slice());
    kept.push(((n, k), list));
    list
}

/// The best choice among the inputs that count, if any is possible.
pub fn best_several(table: &Table, k: usize) -> Option<Several> {
    let counting = table.counting();
    let choices = choices(table.inputs, k).iter().copied();
    let counted = choices.filter(|one| (one.split.own | one.split.shared) & !counting == 0);
    counted.into_iter().find(|one| one.possible(table))
}
