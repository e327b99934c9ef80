//! Trees of two-input nodes.

use second::chain::chain;
use second::fresh::tables::{any, flip_bits};
use second::fresh::trees::tree;
use second::random::Random;
use second::sets::{all, size};
use second::table::Table;
use second::trees::{Trees, MOST_BUILT};

fn every_table(n: usize) -> impl Iterator<Item = Table> {
    (0..1u64 << (1 << n)).map(move |number| Table::from_number(n, number))
}

#[test]
fn every_table_of_two_inputs_has_a_tree_and_of_three_some_have_none() {
    assert_eq!(Trees::new(1).every().len(), 4);
    assert_eq!(Trees::new(2).every().len(), 16);
    let trees = Trees::new(3);
    let majority = Table::from_rule(3, |x| x.count_ones() >= 2);
    let selector = Table::from_rule(3, |x| (x >> (1 + (x & 1))) & 1 == 1);
    assert!(!trees.computes(&majority) && !trees.computes(&selector));
    assert!(trees.computes(&Table::from_rule(3, |x| x == 5)));
}

/// So many tables have a tree over all of n inputs: 2, 10, 114, 2,154, ..
#[test]
fn the_numbers_of_trees_over_all_inputs_are_the_known_ones() {
    for (n, count) in [(1, 2), (2, 10), (3, 114), (4, 2_154), (5, 56_946)] {
        let every = Trees::new(n).every().into_iter();
        assert_eq!(every.filter(|table| table.counting() == all(n)).count(), count);
    }
}

#[test]
fn the_chain_comes_to_its_end_exactly_where_there_is_a_tree() {
    for n in 1..=4 {
        let trees = Trees::new(n);
        for table in every_table(n) {
            assert_eq!(chain(&table, 2).is_some(), trees.computes(&table), "{table:?}");
        }
    }
    let trees = Trees::new(MOST_BUILT);
    let mut random = Random::new(61);
    let (mut with, mut without) = (0, 0);
    for i in 0..600 {
        let mut table = tree(&mut random, MOST_BUILT);
        if i % 2 == 1 {
            flip_bits(&mut random, &mut table);
        }
        let cells = chain(&table, 2);
        assert_eq!(cells.is_some(), trees.computes(&table), "{table:?}");
        let fewest = size(table.counting()).max(2) - 1;
        assert!(cells.iter().all(|cells| cells.len() == fewest));
        with += usize::from(cells.is_some());
        without += usize::from(cells.is_none());
    }
    assert!(with > 200 && without > 200, "{with} and {without}");
}

#[test]
fn no_tree_is_refuted_and_almost_every_random_table_is() {
    let trees = Trees::new(MOST_BUILT);
    let mut random = Random::new(62);
    for n in MOST_BUILT..=9 {
        let drawn = tree(&mut random, n);
        let near = random.below(1 << n);
        assert!(!trees.refuted(&mut random, &drawn, near, 50));
        let other = any(&mut random, n);
        assert!(trees.refuted(&mut random, &other, near, 50));
    }
}
