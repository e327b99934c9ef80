//! Tables of trees of two-input nodes.

use crate::random::Random;
use crate::table::Table;

/// Functions of two bits, as tables, that depend on both.
const OF_BOTH: [u64; 10] = [1, 2, 4, 6, 7, 8, 9, 11, 13, 14];

/// The table of a tree that reads each of n inputs once, in any order, plain or
/// flipped. Now and then a node takes no notice of what it reads.
pub fn tree(random: &mut Random, n: usize) -> Table {
    let mut left: Vec<Table> = (0..n).map(|j| leaf(random, n, j)).collect();
    while left.len() > 1 {
        let one = left.swap_remove(random.below(left.len()));
        let two = left.swap_remove(random.below(left.len()));
        let of_both = !random.one_in(20);
        let function = if of_both { random.pick(&OF_BOTH) } else { random.below(16) as u64 };
        left.push(node(function, &one, &two));
    }
    left.remove(0)
}

fn leaf(random: &mut Random, n: usize, j: usize) -> Table {
    let flipped = random.coin();
    Table::from_rule(n, |x| (x >> j & 1 == 1) ^ flipped)
}

fn node(function: u64, one: &Table, two: &Table) -> Table {
    Table::from_rule(one.inputs, |x| {
        function >> (usize::from(one.bits[x]) | usize::from(two.bits[x]) << 1) & 1 == 1
    })
}
