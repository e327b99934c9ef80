//! The best split: list every candidate, sort by the document's order, take
//! the first that is possible, of those that name only inputs that count.

use std::cmp::Reverse;
use std::sync::Mutex;

use crate::sets::{all, size};
use crate::split::{possible, Split};
use crate::table::Table;

/// The document's order: largest own set, then smallest shared set, then the
/// least mask of the own set, then the least mask of the shared set.
pub fn order(split: &Split) -> (Reverse<usize>, usize, u16, u16) {
    (Reverse(size(split.own)), size(split.shared), split.own, split.shared)
}

/// Every pair that may be named for n inputs and cell size K, best first.
fn list(n: usize, k: usize) -> Vec<Split> {
    let sets: Vec<u16> = (0..=all(n)).filter(|&mask| size(mask) <= k).collect();
    let mut pairs = Vec::new();
    for &own in sets.iter().filter(|&&mask| size(mask) >= 2) {
        for &shared in &sets {
            if own & shared == 0 && size(own) + size(shared) <= k {
                pairs.push(Split { own, shared });
            }
        }
    }
    pairs.sort_by_key(order);
    pairs
}

/// The same list, made once for each n and K and then kept: making it for
/// n = 16, K = 6 takes longer than many a search.
pub fn candidates(n: usize, k: usize) -> &'static [Split] {
    type Kept = ((usize, usize), &'static [Split]);
    static KEPT: Mutex<Vec<Kept>> = Mutex::new(Vec::new());
    let mut kept = KEPT.lock().expect("nobody failed with it");
    if let Some((_, pairs)) = kept.iter().find(|(sizes, _)| *sizes == (n, k)) {
        return pairs;
    }
    let pairs: &'static [Split] = Box::leak(list(n, k).into_boxed_slice());
    kept.push(((n, k), pairs));
    pairs
}

/// The best split of the table's inputs that count, if any is possible. Nothing
/// is moved: the masks name the table's own positions.
pub fn best(table: &Table, k: usize) -> Option<Split> {
    let counting = table.counting();
    let pairs = candidates(table.inputs, k).iter().copied();
    let mut counted = pairs.filter(|split| (split.own | split.shared) & !counting == 0);
    counted.find(|&split| possible(table, split))
}
