//! Some examples for the lower bound on cells, worked out by hand.

use super::*;
use crate::calls::least_cells;

pub fn all() -> Vec<Example> {
    let least =
        |edition, n, k, table: &str| least_cells::case([edition, n, k], unhex(table), WORK_BYTES);
    let is = |case, cells: u8| example("least", case, vec![0, cells, 0]);
    let and_of = |n: usize| "00".repeat((1 << (n - 3)) - 1) + "80";
    vec![
        is(least(1, 3, 2, "00"), 1),
        is(least(1, 3, 2, "F0"), 1),
        is(least(1, 3, 2, "C0"), 1),
        is(least(1, 3, 2, "80"), 2),
        is(least(1, 3, 2, "96"), 2),
        // Neither the majority nor the selector of two is a tree.
        is(least(1, 3, 2, "E8"), 3),
        is(least(1, 3, 2, "CA"), 3),
        is(least(1, 3, 3, "E8"), 1),
        is(least(1, 6, 4, SELECTOR), 2),
        // Two cells of 3 read five inputs, not six.
        is(least(1, 6, 3, SELECTOR), 3),
        is(least(1, 16, 6, &and_of(16)), 3),
        is(least(1, 16, 2, &and_of(16)), 15),
        is(least(2, 16, 8, &and_of(16)), 3),
        is(least(2, 11, 8, &and_of(11)), 2),
        is(least(1, 11, 6, &and_of(11)), 2),
        is(least(1, 12, 6, &and_of(12)), 3),
        is(least(2, 8, 8, &and_of(8)), 1),
        refusal("least", least(1, 8, 8, &and_of(8)), 2),
        refusal("least", least(0, 8, 6, &and_of(8)), 2),
        refusal("least", least(9, 17, 9, ""), 1),
        refusal("least", least(1, 2, 2, "10"), 4),
    ]
}
