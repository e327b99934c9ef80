//! Tables for which the lower bound on cells is asked: of two cells wired in any
//! way, of trees, near misses of either, and of every other kind.

use super::gate::{self, Ask};
use super::networks::two_cells;
use super::tables::{any, flip_bits, spread, Drawn, Kind};
use super::trees::tree;
use super::Fresh;
use crate::calls;
use crate::cell::{FIRST, SECOND};
use crate::random::Random;
use crate::refusals::WORK_BYTES;
use crate::sets::all;
use crate::table::{Table, MOST_INPUTS};

/// More inputs than that take long to be wired in every way.
const MOST_WIRED: usize = 11;

pub fn draw(random: &mut Random) -> Ask {
    let ((table, k), name) = match random.below(8) {
        0 | 1 => (of_two_cells(random, false), "two cells"),
        2 => (of_two_cells(random, true), "near miss of two cells"),
        3 => (of_a_tree(random, false), "tree"),
        4 => (of_a_tree(random, true), "near miss of a tree"),
        _ => return gate::draw_in(random, false),
    };
    let mut ask = about(random, table, k);
    ask.tags = vec![format!("lower bound on the cells of: {name}")];
    ask
}

/// A question with just this K, in an edition that has it.
fn about(random: &mut Random, table: Table, k: usize) -> Ask {
    let drawn = Drawn { table, planted: None, suits: None };
    let mut ask = gate::about(random, &drawn, SECOND.most_reads);
    let second = k > FIRST.most_reads || random.coin();
    ask.edition = if second { SECOND.told } else { FIRST.told };
    ask.k = k as u64;
    ask
}

fn of_two_cells(random: &mut Random, near: bool) -> (Table, usize) {
    let k = random.between(2, SECOND.most_reads);
    let inputs = random.between(k + 1, (2 * k - 1).min(MOST_WIRED));
    let mut table = two_cells(random, inputs, k);
    if near {
        flip_bits(random, &mut table);
    }
    (among_others(random, table), k)
}

fn of_a_tree(random: &mut Random, near: bool) -> (Table, usize) {
    let inputs = random.between(1, 9);
    let mut table = tree(random, inputs);
    if near {
        flip_bits(random, &mut table);
    }
    (among_others(random, table), 2)
}

/// In every third case a few inputs more, which don't count, in any places.
fn among_others(random: &mut Random, table: Table) -> Table {
    let more = if random.one_in(3) { random.between(1, 4) } else { 0 };
    let n = (table.inputs + more).min(MOST_INPUTS);
    let set = random.part_of(all(n), table.inputs);
    spread(&table, n, set)
}

/// Every K with every number of inputs, where it doesn't take too long; a few of 12 and more.
pub fn cases(random: &mut Random) -> Vec<Fresh> {
    let mut list = Vec::new();
    let mut push = |k: usize, table: &Table, name: &str| {
        let numbers = [SECOND.told, table.inputs as u64, k as u64];
        let case = calls::least_cells::case(numbers, table.to_bytes(), WORK_BYTES);
        list.push(Fresh { case, tags: vec![format!("lower bound on the cells of: {name}")] });
    };
    for k in 2..=SECOND.most_reads {
        for n in 1..=MOST_INPUTS {
            if n >= 2 * k || n <= MOST_WIRED {
                push(k, &any(random, n), "any table, K and n");
                push(k, &Kind::Xor.draw(random, n).table, "XOR, K and n");
            }
        }
    }
    for (n, k) in [(12, 7), (12, 8), (13, 7)] {
        push(k, &two_cells(random, n, k), "two cells that read many");
        push(k, &any(random, n), "any table that two cells could read");
    }
    for n in [10, 12, 14, 16] {
        let table = tree(random, n);
        push(2, &table, "a large tree");
        push(2, &any(random, n), "a large table, K = 2");
        push(3, &table, "a large tree, K = 3");
    }
    list
}
