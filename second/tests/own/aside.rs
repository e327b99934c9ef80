//! Inputs that don't count: what becomes of find and make.

use second::best::{best, candidates};
use second::calls::find;
use second::case::{answer, PRESET};
use second::cell::Cell;
use second::chain::chain;
use second::fresh::{ignored, tables};
use second::random::Random;
use second::refusals::WORK_BYTES;
use second::sets::{all, gather, members, size};
use second::split::{pair, possible, Split};
use second::table::Table;

/// Tables of every kind, with the K to make them with.
fn drawn(seed: u64, count: usize) -> Vec<(Table, usize)> {
    let mut random = Random::new(seed);
    let kinds = tables::KINDS.iter().cycle().take(count).enumerate();
    kinds.map(|(i, kind)| (kind.draw(&mut random, 1 + i % 8).table, 2 + i % 5)).collect()
}

/// Tables of which just the members of a set count, with the set and a K.
fn with_ignored(seed: u64, count: usize) -> Vec<(Table, u16, usize)> {
    let mut random = Random::new(seed);
    let draw = |i: usize| {
        let (n, k) = (1 + i % 9, 2 + i % 5);
        let counting = random.between(0, n);
        let set = random.part_of(all(n), counting);
        (ignored::table(&mut random, n, set, k), set, k)
    };
    (0..count).map(draw).collect()
}

#[test]
fn what_is_left_gives_every_bit() {
    for (table, _) in drawn(41, 300) {
        let counting = table.counting();
        let left = table.over(counting);
        assert_eq!(left.counting(), all(left.inputs));
        let mut bits = table.bits.iter().enumerate();
        assert!(bits.all(|(x, &bit)| left.bits[gather(x, counting)] == bit));
    }
}

#[test]
fn the_drawn_tables_ignore_what_they_should() {
    for (table, set, _) in with_ignored(42, 500) {
        assert_eq!(table.counting(), set);
    }
}

/// The masks of a split in the positions of a set's members.
fn moved(split: Split, set: u16) -> Split {
    let places = members(set);
    let mask = |part: u16| members(part).into_iter().map(|j| 1 << places[j]).sum();
    Split { own: mask(split.own), shared: mask(split.shared) }
}

#[test]
fn the_best_split_is_that_of_the_inputs_that_count() {
    for (table, set, k) in with_ignored(43, 500) {
        let inner = best(&table.over(set), k).map(|split| moved(split, set));
        assert_eq!(best(&table, k), inner);
    }
}

#[test]
fn a_sheet_is_that_of_the_inputs_that_count() {
    for (table, set, k) in with_ignored(44, 500).into_iter().filter(|(_, set, _)| *set != 0) {
        let (n, inputs) = (table.inputs, members(set));
        let place = |signal: usize| match inputs.get(signal) {
            Some(&input) => input,
            None => n + signal - inputs.len(),
        };
        let moved = |cell: Cell| Cell {
            reads: cell.reads.into_iter().map(place).collect(),
            table: cell.table,
        };
        let inner = chain(&table.over(set), k);
        let inner = inner.map(|cells| cells.into_iter().map(moved).collect::<Vec<_>>());
        assert_eq!(chain(&table, k), inner);
    }
}

#[test]
fn a_constant_is_one_cell_that_reads_signal_0() {
    for n in 1..=8 {
        for (bit, number) in [(false, 0), (true, 3)] {
            let cell = Cell::numbered(vec![0], number);
            assert_eq!(chain(&Table::from_rule(n, |_| bit), 2), Some(vec![cell]));
        }
    }
}

/// Document 01's chain, word for word: nothing is set aside.
fn chain_of_document_01(gate: &Table, k: usize) -> Option<Vec<Cell>> {
    let mut signals: Vec<usize> = (0..gate.inputs).collect();
    let mut table = gate.clone();
    let mut cells: Vec<Cell> = Vec::new();
    while signals.len() > k {
        let mut pairs = candidates(table.inputs, k).iter();
        let split = *pairs.find(|&&split| possible(&table, split))?;
        let (d, h) = pair(&table, split)?;
        let at = |mask: u16| members(mask).into_iter().map(|j| signals[j]).collect::<Vec<_>>();
        let reads = at(split.own | split.shared);
        let mut left = at(all(table.inputs) & !split.own);
        left.push(gate.inputs + cells.len());
        cells.push(Cell { reads, table: d });
        (signals, table) = (left, h);
    }
    cells.push(Cell { reads: signals, table });
    Some(cells)
}

/// So setting aside acts only before the first step.
#[test]
fn where_all_inputs_count_the_chain_is_that_of_document_01() {
    let mut met = 0;
    for (table, k) in drawn(45, 600) {
        if table.counting() == all(table.inputs) {
            assert_eq!(chain(&table, k), chain_of_document_01(&table, k));
            met += 1;
        }
    }
    assert!(met > 200, "{met}");
}

#[test]
fn every_cell_depends_on_all_that_it_reads() {
    for (table, k) in drawn(46, 600) {
        for cell in chain(&table, k).unwrap_or_default() {
            let own = cell.table;
            assert!(table.counting() == 0 || own.counting() == all(own.inputs));
        }
    }
}

#[test]
fn find_names_what_the_first_cell_reads() {
    let mut met = 0;
    for (table, set, k) in with_ignored(47, 600) {
        let case = find::case(table.inputs as u64, k as u64, table.to_bytes(), WORK_BYTES);
        let numbers = answer(&case, PRESET).numbers;
        assert_eq!(numbers[0] == 7, size(set) <= k);
        let cells = chain(&table, k).unwrap_or_default();
        if numbers[0] == 0 && !cells.is_empty() {
            assert_eq!(members(numbers[1] as u16 | numbers[2] as u16), cells[0].reads);
            met += 1;
        }
    }
    assert!(met > 50, "{met}");
}
