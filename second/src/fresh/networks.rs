//! Tables that two cells carry, wired in any way.

use super::tables::any;
use crate::cell::Cell;
use crate::network::rebuild;
use crate::random::Random;
use crate::table::Table;

/// The table of two cells of k places over n inputs (at most 2k - 1), with any
/// tables: what they read comes in any order, may be read by both, and may be
/// read twice by one. Each input is read by some cell.
pub fn two_cells(random: &mut Random, n: usize, k: usize) -> Table {
    let mut inputs: Vec<usize> = (0..n).collect();
    random.shuffle(&mut inputs);
    let for_first = random.between((n + 1).saturating_sub(k).max(1), k.min(n));
    let (first, second) = inputs.split_at(for_first);
    let first = filled(random, first.to_vec(), n, k);
    let second = filled(random, [second, &[n]].concat(), n + 1, k);
    let cells = [first, second].map(|reads| Cell { table: any(random, reads.len()), reads });
    rebuild(n, &cells)
}

/// The table of so many cells of k places over n inputs, wired in any way: each
/// input is read by some cell, and each cell but the last by a later one.
pub fn planted(random: &mut Random, n: usize, k: usize, cells: usize) -> Table {
    let mut reads: Vec<Vec<usize>> = vec![Vec::new(); cells];
    for cell in 0..cells - 1 {
        // The next may be full of cells before; the last never is.
        let later: Vec<usize> = (cell + 1..cells).filter(|&at| reads[at].len() < k).collect();
        reads[random.pick(&later)].push(n + cell);
    }
    for input in 0..n {
        let open: Vec<usize> = (0..cells).filter(|&at| reads[at].len() < k).collect();
        reads[random.pick(&open)].push(input);
    }
    let wired = reads.into_iter().enumerate().map(|(i, reads)| filled(random, reads, n + i, k));
    let wired: Vec<Vec<usize>> = wired.collect();
    let cells: Vec<Cell> =
        wired.into_iter().map(|reads| Cell { table: any(random, k), reads }).collect();
    rebuild(n, &cells)
}

/// Fills k places up with signals below a limit, and mixes them.
fn filled(random: &mut Random, mut reads: Vec<usize>, limit: usize, k: usize) -> Vec<usize> {
    while reads.len() < k {
        reads.push(random.below(limit));
    }
    random.shuffle(&mut reads);
    reads
}
