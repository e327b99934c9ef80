//! The plain search: every pair of masks in order, each pair's columns compared bit by bit.

use crate::table::bit;

struct Split {
    own: u32,
    shared: u32,
    free: u32,
}

/// The next number within a mask, 0 after the last.
fn next(mask: u32, z: u32) -> u32 {
    z.wrapping_sub(mask) & mask
}

fn same_column(t: &[u8], s: &Split, x: u32, y: u32) -> bool {
    let mut f = 0;
    loop {
        if bit(t, x + f) != bit(t, y + f) {
            return false;
        }
        f = next(s.free, f);
        if f == 0 {
            return true;
        }
    }
}

/// Whether the shared assignment at `base` has at most two different columns.
fn few_at(t: &[u8], s: &Split, base: u32) -> bool {
    let mut seen = [0u32; 2];
    let mut k = 0;
    let mut z = 0;
    loop {
        if !seen[..k].iter().any(|&y| same_column(t, s, base + z, base + y)) {
            if k == 2 {
                return false;
            }
            seen[k] = z;
            k += 1;
        }
        z = next(s.own, z);
        if z == 0 {
            return true;
        }
    }
}

pub fn few_columns(t: &[u8], n: u32, own: u16, shared: u16) -> bool {
    let (own, shared) = (own as u32, shared as u32);
    let s = Split { own, shared, free: ((1 << n) - 1) & !own & !shared };
    let mut base = 0;
    loop {
        if !few_at(t, &s, base) {
            return false;
        }
        base = next(s.shared, base);
        if base == 0 {
            return true;
        }
    }
}

fn walk_shared(t: &[u8], n: u32, own: u16, p: u32, acc: u16, k: u32) -> Option<(u16, u16)> {
    if k > p {
        return None;
    }
    if k == 0 {
        return few_columns(t, n, own, acc).then_some((own, acc));
    }
    let j = p - 1;
    if let Some(found) = walk_shared(t, n, own, j, acc, k) {
        return Some(found);
    }
    if own >> j & 1 == 1 {
        return None;
    }
    walk_shared(t, n, own, j, acc | 1 << j, k - 1)
}

fn walk_own(t: &[u8], n: u32, q: u32, p: u32, acc: u16, k: u32) -> Option<(u16, u16)> {
    if k > p {
        return None;
    }
    if k == 0 {
        return walk_shared(t, n, acc, n, 0, q);
    }
    let j = p - 1;
    if let Some(found) = walk_own(t, n, q, j, acc, k) {
        return Some(found);
    }
    walk_own(t, n, q, j, acc | 1 << j, k - 1)
}

/// The best split: the largest own set first, then the smallest shared one, then the least masks.
pub fn find(t: &[u8], n: u32, k: u32) -> Option<(u16, u16)> {
    (2..=k).rev().find_map(|p| (0..=k - p).find_map(|q| walk_own(t, n, q, n, 0, p)))
}
