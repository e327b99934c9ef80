//! A gate's table as bytes: bits, words, the inputs that count.

/// The six input patterns, where the input is 0.
pub const OFF: [u64; 6] = [
    0x5555_5555_5555_5555,
    0x3333_3333_3333_3333,
    0x0F0F_0F0F_0F0F_0F0F,
    0x00FF_00FF_00FF_00FF,
    0x0000_FFFF_0000_FFFF,
    0x0000_0000_FFFF_FFFF,
];

pub fn bit(t: &[u8], x: u32) -> bool {
    t[(x >> 3) as usize] >> (x & 7) & 1 == 1
}

/// Word w of a table; one of fewer than eight bytes is a single short word.
pub fn word(t: &[u8], w: usize) -> u64 {
    let from = 8 * w;
    if let Some(eight) = t.get(from..from + 8) {
        return u64::from_le_bytes(eight.try_into().unwrap());
    }
    t[from..].iter().rev().fold(0, |sum, &byte| sum << 8 | byte as u64)
}

/// The bits from the assignment x on, as far as its word goes.
pub fn bits_from(t: &[u8], x: u32) -> u64 {
    word(t, (x >> 6) as usize) >> (x & 63)
}

/// The places of a word at which input j is 0; all of them from input 6 on.
pub fn off(j: u32) -> u64 {
    OFF.get(j as usize).copied().unwrap_or(u64::MAX)
}

/// How many bytes the table of n inputs has.
pub fn length(n: u32) -> usize {
    (1usize << n).div_euclid(8).max(1)
}

fn counts(t: &[u8], n: u32, live: u16, j: u32) -> bool {
    let words = ((1u32 << n) / 64).max(1);
    (0..words).filter(|w| w & !(live as u32 >> 6) == 0).any(|w| {
        let here = word(t, w as usize);
        if j < 6 {
            ((here >> (1 << j)) ^ here) & OFF[j as usize] & filled(n) != 0
        } else {
            here != word(t, (w ^ (1 << (j - 6))) as usize)
        }
    })
}

/// The places of a word that a table of n inputs fills.
fn filled(n: u32) -> u64 {
    if n < 6 {
        (1 << (1 << n)) - 1
    } else {
        u64::MAX
    }
}

/// The mask of the inputs that count, from the highest down; one that doesn't is set aside before the next.
pub fn support(t: &[u8], n: u32) -> u16 {
    let mut live = ((1u32 << n) - 1) as u16;
    for j in (0..n).rev() {
        if !counts(t, n, live, j) {
            live &= !(1 << j);
        }
    }
    live
}

/// The number v spread over the positions of a mask.
pub fn spread(mask: u16, v: u32) -> u32 {
    let (mut left, mut out) = (mask, 0);
    for i in 0..mask.count_ones() {
        let low = left & left.wrapping_neg();
        if v >> i & 1 == 1 {
            out |= low as u32;
        }
        left ^= low;
    }
    out
}

/// The table over the inputs of a mask, the others at 0, into the front of a work area.
pub fn set_aside(t: &[u8], n: u32, mask: u16, work: &mut [u8]) {
    if mask as u32 == (1 << n) - 1 {
        work[..t.len()].copy_from_slice(t);
        return;
    }
    let m = mask.count_ones();
    for (i, byte) in work[..length(m)].iter_mut().enumerate() {
        *byte = 0;
        for j in 0..8.min(1u32 << m) {
            *byte |= (bit(t, spread(mask, 8 * i as u32 + j)) as u8) << j;
        }
    }
}

/// Finding, with any search, over the inputs that count: as the call does it, work area and all.
pub fn over_counting(
    t: &[u8],
    n: u32,
    k: u32,
    work: &mut [u8],
    search: fn(&[u8], u32, u32) -> Option<(u16, u16)>,
) -> Option<(u16, u16)> {
    let mask = support(t, n);
    let m = mask.count_ones();
    if m <= k {
        return None;
    }
    set_aside(t, n, mask, work);
    let found = search(&work[..length(m)], m, k);
    work.fill(0);
    found.map(|(own, shared)| (spread(mask, own as u32) as u16, spread(mask, shared as u32) as u16))
}
