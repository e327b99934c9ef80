//! Sheets to be printed as formulas, and the ways in which one isn't printed.

use super::sheet::{self, Ask, Fault};
use super::trees::tree;
use crate::case::TEXT_BUFFER;
use crate::cell::{read_sheet, write_sheet, Cell, FIRST, MOST_RECORDS};
use crate::chain::chain;
use crate::printing::{OF_ONE, OF_TWO};
use crate::random::Random;
use crate::table::Table;
use crate::text::MOST_TEXT;

// What makes a sheet one that isn't printed comes before what breaks it.
const FAULTS: [Fault; 9] = [
    ("a record read twice", read_twice),
    sheet::PADDED,
    ("a wider cell", wider),
    ("a table that ignores a signal", ignores),
    sheet::RECORD,
    sheet::RECORD,
    sheet::LENGTH,
    ("room for the text", short_room),
    sheet::INPUTS,
];

/// A sheet for a gate of n inputs, mostly one that is printed, and then perhaps spoiled.
pub fn draw(random: &mut Random, n: usize) -> Ask {
    let (cells, kind) = match random.below(6) {
        0 => (made(random, n), "made with K = 2"),
        1 => (chained(random, n), "one-input and two-input cells in a row"),
        // Where faults are planned, they are those of this call.
        2 if random.planned.is_none() => {
            let mut ask = sheet::draw(random, &FIRST, n);
            ask.room = any_room(random);
            return ask;
        }
        _ => (wired(random, n), "cells that are each read once"),
    };
    // A planned fault comes last, on a sheet that has none.
    let planned = random.planned;
    random.planned = planned.map(|_| [usize::MAX; 2]);
    let mut ask = sheet::draw(random, &FIRST, n);
    random.planned = planned;
    ask.sheet = write_sheet(&cells);
    ask.room = any_room(random);
    ask.tags = vec![format!("sheet: {kind}")];
    ask.tags.extend(cells.iter().map(form));
    sheet::spoil(random, &mut ask, &FAULTS);
    ask
}

/// Which form a cell has, to be counted.
fn form(cell: &Cell) -> String {
    let forms: &[(u64, &str)] = if cell.reads.len() == 1 { &OF_ONE } else { &OF_TWO };
    let known = forms.iter().find(|(table, _)| *table == cell.table.to_number());
    format!("form: {}", known.map_or("none", |(_, form)| form))
}

fn any_room(random: &mut Random) -> usize {
    if random.coin() {
        MOST_TEXT
    } else {
        random.between(MOST_TEXT, TEXT_BUFFER)
    }
}

/// The sheet of a tree, made with K = 2. A tree of few inputs is enough for large n.
fn made(random: &mut Random, n: usize) -> Vec<Cell> {
    let few = n.min(8);
    let table = tree(random, few);
    chain(&table, 2).expect("K = 2 finds every tree")
}

/// A table of one signal, or of two that depends on both.
fn any_table(random: &mut Random, places: usize) -> u64 {
    if places == 1 {
        random.pick(&OF_ONE).0
    } else {
        random.pick(&OF_TWO).0
    }
}

/// Cells that read each earlier cell once, in any order, and any inputs besides.
fn wired(random: &mut Random, n: usize) -> Vec<Cell> {
    let records = random.between(1, MOST_RECORDS);
    let mut cells: Vec<Cell> = Vec::new();
    let mut open: Vec<usize> = Vec::new();
    for i in 0..records {
        let left = records - 1 - i;
        // So many cells still to come can read two each: all that is open must be read in the end.
        let mut reads = Vec::new();
        while reads.len() < 2 && !open.is_empty() && (open.len() > left || random.coin()) {
            reads.push(open.swap_remove(random.below(open.len())));
        }
        if reads.is_empty() || (reads.len() == 1 && random.coin()) {
            reads.push(random.below(n));
        }
        if reads.len() == 1 && n > 1 && reads[0] < n && random.coin() {
            reads.push((reads[0] + random.between(1, n - 1)) % n);
        }
        reads.sort();
        let table = any_table(random, reads.len());
        cells.push(Cell::numbered(reads, table));
        open.push(n + i);
    }
    cells
}

/// As many records as a sheet may have, each read by the next, so that the text nests as deep as it can.
fn chained(random: &mut Random, n: usize) -> Vec<Cell> {
    let records = if random.coin() { MOST_RECORDS } else { random.between(1, MOST_RECORDS) };
    let one_input = random.one_in(3);
    let cell = |i: usize, random: &mut Random| {
        let mut reads = vec![random.below(n)];
        if i > 0 && (one_input || random.one_in(4)) {
            reads = vec![n + i - 1];
        } else if i > 0 {
            reads.push(n + i - 1);
        }
        let table = any_table(random, reads.len());
        Cell::numbered(reads, table)
    };
    (0..records).map(|i| cell(i, random)).collect()
}

fn cells_of(ask: &Ask) -> Vec<Cell> {
    read_sheet(ask.n as usize, &ask.sheet).expect("a sound sheet")
}

/// A later cell reads an earlier one that is read already.
fn read_twice(random: &mut Random, ask: &mut Ask) {
    let (mut cells, n) = (cells_of(ask), ask.n as usize);
    if cells.len() < 2 {
        return;
    }
    let i = random.below(cells.len() - 1);
    let later = random.between(i + 1, cells.len() - 1);
    let reads = &mut cells[later].reads;
    if !reads.contains(&(n + i)) {
        if reads.len() > 1 {
            reads.remove(random.below(2));
        }
        reads.push(n + i);
        reads.sort();
        let places = reads.len();
        cells[later].table = Table::from_number(places, any_table(random, places));
    }
    ask.sheet = write_sheet(&cells);
}

/// One cell reads three signals, the third of which does nothing, or counts.
fn wider(random: &mut Random, ask: &mut Ask) {
    let (mut cells, n) = (cells_of(ask), ask.n as usize);
    let i = random.below(cells.len());
    let others: Vec<usize> = (0..n).filter(|input| !cells[i].reads.contains(input)).collect();
    if cells[i].reads.len() == 2 && !others.is_empty() {
        cells[i].reads.push(random.pick(&others));
        cells[i].reads.sort();
        let same = cells[i].table.to_number() * 0x11;
        let number = if random.coin() { same } else { random.bits() & 0xFF };
        cells[i].table = Table::from_number(3, number);
    }
    ask.sheet = write_sheet(&cells);
}

/// One cell of two signals takes no notice of one of them, or of both.
fn ignores(random: &mut Random, ask: &mut Ask) {
    let mut cells = cells_of(ask);
    let of_two: Vec<usize> = (0..cells.len()).filter(|&i| cells[i].reads.len() == 2).collect();
    if !of_two.is_empty() {
        let i = random.pick(&of_two);
        let number = random.pick(&[0x0, 0x3, 0x5, 0xA, 0xC, 0xF]);
        cells[i].table = Table::from_number(2, number);
    }
    ask.sheet = write_sheet(&cells);
}

fn short_room(random: &mut Random, ask: &mut Ask) {
    ask.room = match random.below(3) {
        0 => 0,
        1 => MOST_TEXT - 1,
        _ => random.below(MOST_TEXT),
    };
}
