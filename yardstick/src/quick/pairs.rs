//! For each two inputs the ones that can't be free where the two are own: the smallest witnesses, by whole words.

use super::columns::next;
use crate::table::{bits_from, off};

pub struct Pairs([u16; 256]);

impl Pairs {
    pub fn unknown() -> Pairs {
        Pairs([0; 256])
    }

    pub fn fill(&mut self, t: &[u8], n: u32, most: u32) {
        for i in 0..n {
            for j in 0..i {
                self.0[(16 * i + j) as usize] = bad_inputs(t, n, most, i, j);
            }
        }
    }

    /// Whether no two inputs can be own.
    pub fn all_dead(&self, n: u32, k: u32) -> bool {
        (0..n).all(|i| {
            (0..i).all(|j| {
                let other = self.0[(16 * i + j) as usize] & !(1 << i) & !(1 << j);
                k < 2 + other.count_ones()
            })
        })
    }

    /// What is needed, with the inputs that can't be free where j is own beside acc; j is below all of acc.
    pub fn needed(&self, acc: u16, j: u32, need: u16) -> u16 {
        let mut more = need;
        let mut x = acc;
        while x != 0 {
            more |= self.0[(16 * x.trailing_zeros() + j) as usize];
            x &= x - 1;
        }
        more
    }
}

/// The inputs that can't be free where i and j are own; no more of them than one above `most`.
fn bad_inputs(t: &[u8], n: u32, most: u32, i: u32, j: u32) -> u16 {
    let places = off(i) & off(j);
    // With none that may be needed one witness ends the two, and most show it early.
    let reach = if most == 0 { 4 } else { usize::MAX };
    let mut mask = 0u16;
    for c in (0..n).rev() {
        if c != i && c != j && bad(t, n, places, i, j, c, reach) {
            mask |= 1 << c;
        }
        if mask.count_ones() > most {
            break;
        }
    }
    mask
}

/// Whether eight bits rule out every split with i and j own and c free, 64 places at a time, `reach` times at most.
fn bad(t: &[u8], n: u32, places: u64, i: u32, j: u32, c: u32, reach: usize) -> bool {
    let (p, q, d) = (1 << i, 1 << j, 1 << c);
    let here = places & off(c);
    let high = ((1u32 << n) - 64) & !(p | q | d);
    let mut x = 0u32;
    for _ in 0..reach {
        if clash(t, x, d, p, q) & here != 0 {
            return true;
        }
        x = next(high, x);
        if x == 0 {
            return false;
        }
    }
    false
}

/// Where, from x on, the four points with p, q, both and neither have three columns over d: some point changes without
/// d, some with d, and some with one of the two alone.
fn clash(t: &[u8], x: u32, d: u32, p: u32, q: u32) -> u64 {
    let change = |from: u32, set: u32| bits_from(t, from | set) ^ bits_from(t, from);
    let (y, r) = (x | d, p | q);
    let (ap, aq, ar) = (change(x, p), change(x, q), change(x, r));
    let (bp, bq, br) = (change(y, p), change(y, q), change(y, r));
    (ap | aq | ar) & (bp | bq | br) & ((ap ^ bp) | (aq ^ bq) | (ar ^ br))
}
