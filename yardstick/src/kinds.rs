//! Kinds of tables, from a seed. Each is such that no split is possible, but for those that say so.

use crate::table::{length, spread};

pub struct Random(pub u64);

impl Random {
    /// SplitMix64.
    pub fn next(&mut self) -> u64 {
        self.0 = self.0.wrapping_add(0x9E37_79B9_7F4A_7C15);
        let mut z = self.0;
        z = (z ^ z >> 30).wrapping_mul(0xBF58_476D_1CE4_E5B9);
        z = (z ^ z >> 27).wrapping_mul(0x94D0_49BB_1331_11EB);
        z ^ z >> 31
    }

    fn below(&mut self, most: u64) -> u64 {
        self.next() % most
    }
}

fn table(n: u32, mut bit: impl FnMut(u32) -> bool) -> Vec<u8> {
    let mut t = vec![0; length(n)];
    for x in 0..1u32 << n {
        t[(x / 8) as usize] |= (bit(x) as u8) << (x % 8);
    }
    t
}

fn flip(t: &mut [u8], x: u64) {
    t[(x / 8) as usize] ^= 1 << (x % 8);
}

pub fn random(n: u32, _k: u32, r: &mut Random) -> Vec<u8> {
    table(n, |_| r.next() >> 40 & 1 == 1)
}

/// F = H(D(own, shared), shared, free): this has a split.
pub fn planted(n: u32, k: u32, r: &mut Random) -> Vec<u8> {
    let own_size = 2 + r.below(k as u64 - 1) as u32;
    let shared_size = r.below((k - own_size) as u64 + 1) as u32;
    let mut order: Vec<u32> = (0..n).collect();
    for i in (1..order.len()).rev() {
        order.swap(i, r.below(i as u64 + 1) as usize);
    }
    let mask = |part: &[u32]| part.iter().fold(0u16, |m, j| m | 1 << j);
    let own = mask(&order[..own_size as usize]);
    let shared = mask(&order[own_size as usize..(own_size + shared_size) as usize]);
    let first = own | shared;
    let d: Vec<bool> = (0..1 << first.count_ones()).map(|_| r.next() >> 40 & 1 == 1).collect();
    let h: Vec<bool> = (0..2 << n).map(|_| r.next() >> 40 & 1 == 1).collect();
    let rest = ((1u32 << n) - 1) & !(own as u32);
    let gathered =
        |x: u32| (0..d.len() as u32).find(|&v| spread(first, v) == x & first as u32).unwrap();
    table(n, |x| h[((x & rest) << 1 | d[gathered(x) as usize] as u32) as usize])
}

/// A planted table with one or two bits flipped.
pub fn near_miss(n: u32, k: u32, r: &mut Random) -> Vec<u8> {
    let mut t = planted(n, k, r);
    for _ in 0..1 + r.below(2) {
        let x = r.below(1 << n);
        flip(&mut t, x);
    }
    t
}

/// The XOR of all inputs with its last row flipped.
pub fn xor_flipped(n: u32, _k: u32, _r: &mut Random) -> Vec<u8> {
    let mut t = table(n, |x| x.count_ones() & 1 == 1);
    flip(&mut t, (1 << n) - 1);
    t
}

/// The XOR of all inputs with some row flipped.
pub fn xor_any_flipped(n: u32, _k: u32, r: &mut Random) -> Vec<u8> {
    let mut t = table(n, |x| x.count_ones() & 1 == 1);
    let x = r.below(1 << n);
    flip(&mut t, x);
    t
}

/// From 2 to 40 ones.
pub fn sparse(n: u32, _k: u32, r: &mut Random) -> Vec<u8> {
    let mut t = vec![0; length(n)];
    for _ in 0..2 + r.below(39) {
        let x = r.below(1 << n);
        t[(x / 8) as usize] |= 1 << (x % 8);
    }
    t
}

/// AND and XOR of all inputs: these split at once.
pub fn all_and(n: u32, _k: u32, _r: &mut Random) -> Vec<u8> {
    table(n, |x| x == (1 << n) - 1)
}

pub fn all_xor(n: u32, _k: u32, _r: &mut Random) -> Vec<u8> {
    table(n, |x| x.count_ones() & 1 == 1)
}
