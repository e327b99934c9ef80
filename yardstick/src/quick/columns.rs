//! The columns of a split, compared by whole words.

use crate::table::{bits_from, off};

#[derive(Clone, Copy)]
pub struct Split<'a> {
    pub t: &'a [u8],
    pub own: u32,
    pub shared: u32,
    /// The free inputs that step from word to word, and the places of a word that the others make.
    high: u32,
    low: u64,
}

/// The next number within a mask, 0 after the last.
pub fn next(mask: u32, z: u32) -> u32 {
    z.wrapping_sub(mask) & mask
}

impl<'a> Split<'a> {
    pub fn of(t: &'a [u8], n: u32, own: u16, shared: u16) -> Split<'a> {
        let (own, shared) = (own as u32, shared as u32);
        let free = ((1 << n) - 1) & !own & !shared;
        let low = (0..6).filter(|j| free >> j & 1 == 0).fold(u64::MAX, |m, j| m & off(j));
        Split { t, own, shared, high: free & !63, low }
    }

    /// The free part at which the columns from x and from y on differ.
    pub fn differ(&self, x: u32, y: u32) -> Option<u32> {
        let mut h = 0u32;
        loop {
            let d = (bits_from(self.t, x | h) ^ bits_from(self.t, y | h)) & self.low;
            if d != 0 {
                return Some(h | d.trailing_zeros());
            }
            h = next(self.high, h);
            if h == 0 {
                return None;
            }
        }
    }

    /// Whether the shared assignment at `base` has at most two different columns.
    fn few_at(&self, base: u32) -> bool {
        let mut seen = [0u32; 2];
        let mut k = 0;
        let mut z = 0;
        loop {
            if !seen[..k].iter().any(|&y| self.differ(base | z, base | y).is_none()) {
                if k == 2 {
                    return false;
                }
                seen[k] = z;
                k += 1;
            }
            z = next(self.own, z);
            if z == 0 {
                return true;
            }
        }
    }

    pub fn few_columns(&self) -> bool {
        let mut base = 0;
        loop {
            if !self.few_at(base) {
                return false;
            }
            base = next(self.shared, base);
            if base == 0 {
                return true;
            }
        }
    }
}
