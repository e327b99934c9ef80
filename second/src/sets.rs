//! Sets of positions as masks: bit j stands for position j.

/// The size of a set is the number of ones in its mask.
pub fn size(mask: u16) -> usize {
    mask.count_ones() as usize
}

/// The set of all positions of a table with n inputs.
pub fn all(n: usize) -> u16 {
    ((1u32 << n) - 1) as u16
}

/// The members in increasing position.
pub fn members(mask: u16) -> Vec<usize> {
    (0..16).filter(|j| (mask >> j) & 1 == 1).collect()
}

/// Every assignment of a set, all other positions 0, in increasing order.
pub fn assignments(mask: u16) -> Vec<usize> {
    let mask = usize::from(mask);
    let mut list = vec![0];
    let mut x = 0;
    while x != mask {
        // Filled up with ones outside the set, one more carries over to the
        // next assignment of the set.
        x = ((x | !mask) + 1) & mask;
        list.push(x);
    }
    list
}

/// Reads the members of a set out of an assignment, the lowest as bit 0. Only
/// for tables that are made up and for networks: no answer is read through it.
pub fn gather(x: usize, mask: u16) -> usize {
    let places = members(mask).into_iter().enumerate();
    places.map(|(i, j)| ((x >> j) & 1) << i).sum()
}
