//! The lower bound on cells.

use std::collections::HashMap;

use second::calls::least_cells;
use second::carry::Networks;
use second::case::{answer, PRESET};
use second::cell::Cell;
use second::chain::chain;
use second::fresh::networks::two_cells;
use second::fresh::tables::{self, any, flip_bits};
use second::fresh::trees::tree;
use second::least::least;
use second::network::rebuild;
use second::random::Random;
use second::refusals::WORK_BYTES;
use second::sets::{all, size};
use second::table::Table;
use second::trees::{from_the_top, Trees, MOST_BUILT};

#[test]
fn a_tree_from_the_top_is_one_of_all_that_are_built() {
    for n in 1..=4 {
        let trees = Trees::new(n);
        for number in 0..1u64 << (1 << n) {
            let table = Table::from_number(n, number);
            if table.counting() == all(n) {
                assert_eq!(from_the_top(&table), trees.computes(&table), "{table:?}");
            }
        }
    }
    let trees = Trees::new(MOST_BUILT);
    let mut random = Random::new(101);
    let (mut with, mut without) = (0, 0);
    for i in 0..600 {
        let mut table = tree(&mut random, MOST_BUILT);
        if i % 2 == 1 {
            flip_bits(&mut random, &mut table);
        }
        let left = table.over(table.counting());
        assert_eq!(from_the_top(&left), trees.computes(&table));
        with += usize::from(from_the_top(&left));
        without += usize::from(!from_the_top(&left));
    }
    assert!(with > 200 && without > 200, "{with} and {without}");
}

/// Every network of cells of two inputs, up to three of them, of which each gives
/// 0 where it reads zeros: any other differs from one of these in flipped signals.
#[test]
fn no_network_of_pairs_has_fewer_cells() {
    for n in 3..=4 {
        let inputs = (0..n).map(|j| Table::from_rule(n, |x| x >> j & 1 == 1).to_number());
        let mut known = HashMap::new();
        extend(n, &inputs.collect::<Vec<_>>(), 0, &mut known);
        assert!(known.len() > 50, "{}", known.len());
    }
}

fn extend(n: usize, signals: &[u64], cells: usize, known: &mut HashMap<u64, usize>) {
    if cells > 0 {
        let table = *signals.last().expect("a signal");
        let least = known.entry(table).or_insert_with(|| least(&Table::from_number(n, table), 2));
        assert!(*least <= cells, "{table:X} of {n} inputs: {least}, and {cells} do");
    }
    if cells == 3 {
        return;
    }
    let full = Table::from_rule(n, |_| true).to_number();
    for (i, one) in signals.iter().enumerate() {
        for two in &signals[..i] {
            for table in [one & two, one & !two, !one & two, one | two, one ^ two] {
                let table = table & full;
                extend(n, &[signals, &[table]].concat(), cells + 1, known);
            }
        }
    }
}

/// Any cells, each read by a later one or not.
fn network(random: &mut Random, n: usize, k: usize, cells: usize) -> Table {
    let list: Vec<Cell> = (0..cells)
        .map(|i| {
            let reads: Vec<usize> = (0..k).map(|_| random.below(n + i)).collect();
            Cell { table: any(random, k), reads }
        })
        .collect();
    rebuild(n, &list)
}

#[test]
fn no_network_of_larger_cells_has_fewer() {
    let mut random = Random::new(102);
    let mut met = [0; 6];
    for i in 0..1500 {
        let (k, cells) = (3 + i % 4, 1 + i % 5);
        let n = random.between(k, 9);
        let table = network(&mut random, n, k, cells);
        let least = least(&table, k);
        assert!(least <= cells, "{least}, and {cells} do");
        met[least] += 1;
    }
    assert!(met[1] > 100 && met[2] > 100 && met[3] > 20, "{met:?}");
}

#[test]
fn a_sheet_has_no_fewer_cells_and_where_it_has_up_to_three_just_so_many() {
    let mut random = Random::new(103);
    let mut met = 0;
    for i in 0..400 {
        let k = 2 + i % 5;
        let table = match i % 2 {
            0 => tables::KINDS[i % tables::KINDS.len()].draw(&mut random, 7).table,
            _ => two_cells(&mut random, (k + 2).min(2 * k - 1), k),
        };
        if let Some(cells) = chain(&table, k) {
            let least = least(&table, k);
            assert!(least <= cells.len());
            assert!(cells.len() > 3 || least == cells.len());
            met += 1;
        }
    }
    assert!(met > 200, "{met}");
}

#[test]
fn one_and_two_are_those_of_the_networks() {
    let mut random = Random::new(104);
    for i in 0..300 {
        let k = 3 + i % 4;
        let mut table = two_cells(&mut random, (k + 2).min(2 * k - 1), k);
        if i % 3 == 0 {
            flip_bits(&mut random, &mut table);
        }
        let fewest = Networks::new(table.inputs, k).fewest(&table);
        let least = least(&table, k);
        assert_eq!(fewest, (least <= 2).then_some(least));
    }
}

#[test]
fn large_tables_need_what_reading_their_inputs_takes() {
    let mut random = Random::new(105);
    for k in 2..=8 {
        for n in 2 * k..=16 {
            let table = any(&mut random, n);
            let many = size(table.counting());
            assert_eq!(many, n);
            let cells = (n - 1 + k - 2) / (k - 1);
            let expected = if k == 2 { n } else { cells.max(3) };
            assert_eq!(least(&table, k), expected, "n {n}, K {k}");
        }
    }
}

#[test]
fn of_several_refusals_the_lowest_is_given() {
    let told = |numbers, table: &[u8], work| {
        answer(&least_cells::case(numbers, table.to_vec(), work), PRESET).numbers
    };
    assert_eq!(told([3, 0, 9], &[], 0), [1, 0]);
    assert_eq!(told([3, 3, 2], &[], 0), [2, 0]);
    assert_eq!(told([1, 3, 7], &[], 0), [2, 0]);
    assert_eq!(told([2, 3, 9], &[], 0), [2, 0]);
    assert_eq!(told([2, 2, 8], &[], 0), [3, 0]);
    assert_eq!(told([2, 2, 8], &[0x10], 0), [4, 0]);
    assert_eq!(told([2, 2, 8], &[0x06], WORK_BYTES - 1), [6, 0]);
    assert_eq!(told([2, 2, 8], &[0x06], WORK_BYTES), [0, 1]);
}
