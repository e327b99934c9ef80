//! The quick search, step for step as the proved one goes from six inputs that count on: the first candidate, the
//! pairs, then the walks with what is needed and what was learned.

mod columns;
mod learned;
mod pairs;
mod walk;
mod witness;

use columns::Split;
use learned::Learned;
use pairs::Pairs;
use walk::Walk;

/// The best split: the largest own set first, then the smallest shared one, then the least masks.
pub fn find(t: &[u8], n: u32, k: u32) -> Option<(u16, u16)> {
    if k < 2 {
        return None;
    }
    if n >= k {
        let first = ((1u32 << k) - 1) as u16;
        if Split::of(t, n, first, 0).few_columns() {
            return Some((first, 0));
        }
    }
    let mut pairs = Pairs::unknown();
    if n >= 6 {
        pairs.fill(t, n, k - 2);
        if pairs.all_dead(n, k) {
            return None;
        }
    }
    let mut walk = Walk { t, n, pairs: &pairs, learned: Learned::new() };
    (2..=k).rev().find_map(|p| (0..=k - p).find_map(|q| walk.own(q, 0, n, 0, p)))
}
