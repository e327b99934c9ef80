//! Sound sheets: those the chain makes, and handmade ones that no chain makes.

use super::tables::{any, chain_for};
use crate::cell::{Cell, Edition, BENCH, FIRST, MOST_READS, MOST_RECORDS};
use crate::chain::chain;
use crate::random::Random;
use crate::table::Table;

#[derive(Clone, Copy, Debug, PartialEq, Eq)]
pub enum Kind {
    /// Made by the chain of best splits.
    Made,
    /// Cells of any size that read any earlier signals.
    Handmade,
    /// The last cell reads none of the others.
    Dead,
    OneInput,
    Constants,
    /// Every cell reads as many signals as it can.
    Wide,
    /// As many records as a sheet may have.
    Longest,
}

pub const KINDS: [Kind; 7] = [
    Kind::Made,
    Kind::Handmade,
    Kind::Dead,
    Kind::OneInput,
    Kind::Constants,
    Kind::Wide,
    Kind::Longest,
];

impl Kind {
    pub fn name(self) -> &'static str {
        match self {
            Kind::Made => "made by a chain",
            Kind::Handmade => "handmade",
            Kind::Dead => "dead cells",
            Kind::OneInput => "one-input cells",
            Kind::Constants => "constant cells",
            Kind::Wide => "wide cells",
            Kind::Longest => "15 records",
        }
    }

    /// A sheet of this kind for a gate of n inputs that keeps the record rules,
    /// mostly with each cell read.
    pub fn draw(self, random: &mut Random, n: usize) -> Vec<u8> {
        self.draw_in(random, &FIRST, n)
    }

    pub fn draw_in(self, random: &mut Random, edition: &Edition, n: usize) -> Vec<u8> {
        if self == Kind::Dead || random.one_in(5) {
            return edition.write_sheet(BENCH, &self.cells(random, n, edition.most_reads));
        }
        self.draw_read_in(random, edition, n)
    }

    /// The same with each cell but the last read by a later one.
    pub fn draw_read(self, random: &mut Random, n: usize) -> Vec<u8> {
        self.draw_read_in(random, &FIRST, n)
    }

    pub fn draw_read_in(self, random: &mut Random, edition: &Edition, n: usize) -> Vec<u8> {
        let mut cells = self.cells(random, n, edition.most_reads);
        let places = if self == Kind::OneInput { 1 } else { edition.most_reads };
        read_each(random, n, &mut cells, places);
        edition.write_sheet(BENCH, &cells)
    }

    /// Cells with at most so many places.
    fn cells(self, random: &mut Random, n: usize, most: usize) -> Vec<Cell> {
        let records = random.between(1, MOST_RECORDS);
        match self {
            Kind::Made => made(random, n, most),
            Kind::Handmade => handmade(random, n, records, most),
            Kind::Dead => dead(random, n, records, most),
            Kind::OneInput => (0..records).map(|i| cell(random, n + i, 1)).collect(),
            Kind::Constants => constants(random, n, records, most),
            Kind::Wide => (0..records).map(|i| cell(random, n + i, most)).collect(),
            Kind::Longest => handmade(random, n, MOST_RECORDS, most),
        }
    }
}

/// Has each cell but the last read by a later one, from the last but one down:
/// any later cell with a place left, or else the next, in place of what it reads
/// otherwise (which stands further down, and has its turn yet).
fn read_each(random: &mut Random, n: usize, cells: &mut [Cell], places: usize) {
    while let Some(i) = last_unread(n, cells) {
        let later = random.between(i + 1, cells.len() - 1);
        if cells[later].reads.len() < places {
            cells[later].reads.push(n + i);
            cells[later].table = any(random, cells[later].reads.len());
            cells[later].reads.sort();
        } else {
            let reads = &mut cells[i + 1].reads;
            let place = random.below(reads.len());
            reads[place] = n + i;
            reads.sort();
        }
    }
}

fn last_unread(n: usize, cells: &[Cell]) -> Option<usize> {
    let read = |i: usize| cells[i + 1..].iter().any(|later| later.reads.contains(&(n + i)));
    (0..cells.len() - 1).rev().find(|&i| !read(i))
}

/// The sheet with one more cell before the one with this index, which nobody
/// reads: the signals of those behind it move up.
pub fn padded(random: &mut Random, n: usize, cells: &[Cell], at: usize) -> Vec<Cell> {
    let moved = |signal: usize| if signal < n + at { signal } else { signal + 1 };
    let behind = cells[at..].iter().map(|cell| Cell {
        reads: cell.reads.iter().map(|&signal| moved(signal)).collect(),
        table: cell.table.clone(),
    });
    let places = random.between(1, MOST_READS);
    let more = cell(random, n + at, places);
    cells[..at].iter().cloned().chain([more]).chain(behind).collect()
}

/// A random cell with at most so many places that reads signals below the limit.
fn cell(random: &mut Random, limit: usize, places: usize) -> Cell {
    let mut left: Vec<usize> = (0..limit).collect();
    let count = places.min(limit);
    let mut reads: Vec<usize> =
        (0..count).map(|_| left.swap_remove(random.below(left.len()))).collect();
    reads.sort();
    Cell { table: any(random, count), reads }
}

fn handmade(random: &mut Random, n: usize, records: usize, most: usize) -> Vec<Cell> {
    (0..records)
        .map(|i| {
            let places = random.between(1, most);
            cell(random, n + i, places)
        })
        .collect()
}

/// A sheet whose every record reads 2 to 5 signals, so that each rule of the
/// records can be broken in it (n is at least 2).
pub fn middling(random: &mut Random, edition: &Edition, n: usize, records: usize) -> Vec<u8> {
    let mut cells = Vec::new();
    for i in 0..records {
        let places = random.between(2, 5);
        cells.push(cell(random, n + i, places));
    }
    edition.write_sheet(BENCH, &cells)
}

/// A sheet whose every record reads so many signals (n is at least as many).
pub fn alike(
    random: &mut Random,
    edition: &Edition,
    n: usize,
    records: usize,
    places: usize,
) -> Vec<u8> {
    let cells: Vec<Cell> = (0..records).map(|i| cell(random, n + i, places)).collect();
    edition.write_sheet(BENCH, &cells)
}

fn dead(random: &mut Random, n: usize, records: usize, most: usize) -> Vec<Cell> {
    let mut cells = handmade(random, n, records, most);
    let places = random.between(1, most);
    cells[records - 1] = cell(random, n, places);
    cells
}

fn constants(random: &mut Random, n: usize, records: usize, most: usize) -> Vec<Cell> {
    let mut cells = handmade(random, n, records, most);
    for cell in &mut cells {
        if random.coin() {
            let bit = random.coin();
            cell.table = Table::from_rule(cell.reads.len(), |_| bit);
        }
    }
    cells
}

/// The sheet of a table that is known to be a chain. The chain of best splits
/// may still get stuck on it; then another table is drawn, a smaller one in the end.
fn made(random: &mut Random, n: usize, most: usize) -> Vec<Cell> {
    // Searching is slow for large n and K; a small K makes longer sheets anyway.
    let most = if n > 9 { 3 } else { most };
    for _ in 0..20 {
        let k = random.between(2, most);
        let table = chain_for(random, n, k).table;
        if let Some(cells) = chain(&table, k) {
            return cells;
        }
    }
    handmade(random, n, 1, most)
}
