//! The fewest cells by building every network, against what is known otherwise.

use second::brute::{Pairs, Reached};
use second::carry::Networks;
use second::fresh::networks::{planted, two_cells};
use second::fresh::tables::any;
use second::least::least;
use second::random::Random;
use second::table::Table;

#[test]
fn networks_that_are_built_agree_with_those_that_are_wired() {
    let mut random = Random::new(121);
    for (n, k) in [(3, 2), (4, 2), (4, 3), (5, 3)] {
        let (reached, wired) = (Reached::new(n, k, 2), Networks::new(n, k));
        for i in 0..200 {
            let table = if i % 2 == 0 {
                any(&mut random, n)
            } else {
                two_cells(&mut random, n.min(2 * k - 1), k)
            };
            if table.inputs == n {
                assert_eq!(reached.fewest(&table), wired.fewest(&table), "{table:?}");
            }
        }
    }
}

#[test]
fn three_cells_of_three_inputs_are_found() {
    let mut random = Random::new(122);
    let (reached, pairs) = (Reached::new(4, 3, 2), Pairs::new(4));
    let mut three = 0;
    for _ in 0..400 {
        let table = planted(&mut random, 4, 3, 3);
        assert!(reached.fewest(&table).is_some() || pairs.carry(&table));
        three += usize::from(reached.fewest(&table).is_none());
    }
    assert!(three > 5, "{three}");
}

/// With cells of two inputs four are enough for any table of three; the parity takes two.
#[test]
fn the_least_number_is_never_above_the_fewest() {
    let reached = Reached::new(3, 2, 4);
    let mut equal = 0;
    for number in 0..256 {
        let table = Table::from_number(3, number);
        let fewest = reached.fewest(&table).expect("four cells carry any");
        assert!(least(&table, 2) <= fewest);
        equal += usize::from(least(&table, 2) == fewest);
    }
    assert_eq!(equal, 232);
    assert_eq!(reached.fewest(&Table::from_number(3, 0x96)), Some(2));
}
