//! The lower bound on cells from outside: never above the fewest that every
//! network of small cells takes, nor above the cells that a table was made of.

use super::arguments::Arguments;
use super::asking::{ask, edition_for, make_case, next_answer, nothing_left, seen};
use super::parallel::each_of;
use crate::batch::{answer_length, case_bytes};
use crate::brute::{Pairs, Reached};
use crate::calls::least_cells;
use crate::case::Case;
use crate::cell::SECOND;
use crate::describe::hex;
use crate::fresh::networks::{planted, two_cells};
use crate::fresh::tables::any;
use crate::fresh::trees::tree;
use crate::random::Random;
use crate::refusals::{DONE, NO_SPLIT, WORK_BYTES};
use crate::sets::size;
use crate::table::Table;

/// A table, and the fewest cells, where that is known.
struct Asked {
    table: Table,
    fewest: Option<usize>,
}

/// Tables of one n and K whose fewest cells are told by brute force, up to a limit.
struct Small {
    n: usize,
    k: usize,
    most: usize,
    list: Vec<Asked>,
}

/// Tables of up to 12 inputs that were made of so many cells of size K.
struct Planted {
    k: usize,
    cells: usize,
    tables: Vec<Table>,
}

fn case(k: usize, table: &Table) -> Case {
    let numbers = [edition_for(k).told, table.inputs as u64, k as u64];
    least_cells::case(numbers, table.to_bytes(), WORK_BYTES)
}

fn about(k: usize, table: &Table) -> String {
    format!("n={} K={k} table {}", table.inputs, hex(&table.to_bytes()))
}

pub fn bound(arguments: &Arguments) -> Result<(), String> {
    let wanted = arguments.wanted_command()?;
    let seed = arguments.seed()?;
    let sample = arguments.number("--cases", 1000)? as usize;
    println!("the lower bound on cells: seed {seed}, about {sample} tables for each small n and K");
    let mut random = Random::new(seed);
    let small = small(&mut random, sample);
    let planted = planted_parts(&mut random, sample / 100 + 1);
    let first = small.iter().flat_map(|part| part.list.iter().map(|a| case(part.k, &a.table)));
    let both = |part: &Planted, table: &Table| [case(part.k, table), make_case(part.k, table)];
    let second =
        planted.iter().flat_map(|part| part.tables.iter().flat_map(|table| both(part, table)));
    let batch: Vec<u8> = first.chain(second).flat_map(|case| case_bytes(&case)).collect();
    let mut output = ask(wanted, &batch)?;
    if arguments.flag("--fault") {
        let spoiled = plant_fault(&small[0], &mut output);
        return seen(judge(&small, &planted, &output), &spoiled);
    }
    judge(&small, &planted, &output)
}

/// The AND of three inputs needs one cell more, says an answer now.
fn plant_fault(part: &Small, output: &mut [u8]) -> String {
    let asked = &part.list[0x80];
    output[answer_length(&case(part.k, &asked.table)) * 0x80 + 1] += 1;
    println!("a fault: the lower bound on the cells of one table is one more");
    about(part.k, &asked.table)
}

/// All tables of 3 inputs; of 4 and 5 some that few cells carry, trees and any.
fn small(random: &mut Random, sample: usize) -> Vec<Small> {
    let all = |_: &Reached| (0..256).map(|number| Table::from_number(3, number)).collect();
    let mut list = vec![by_reach([3, 2, 4], all), by_reach([3, 3, 1], all)];
    for sizes in [[4, 2, 4], [4, 3, 2], [5, 2, 3]] {
        let n = sizes[0];
        list.push(by_reach(sizes, |reached| {
            let step = reached.tables(1).len() / (sample / 2 + 1);
            let mut tables = reached.tables(step);
            tables.extend((0..sample / 4).map(|_| tree(random, n)));
            tables.extend((0..sample / 4).map(|_| any(random, n)));
            tables
        }));
    }
    for n in [4, 5] {
        list.push(by_pairs(random, n, sample / 50 + 1));
    }
    list
}

fn by_reach([n, k, most]: [usize; 3], tables: impl FnOnce(&Reached) -> Vec<Table>) -> Small {
    let reached = Reached::new(n, k, most);
    let asked = |table: Table| Asked { fewest: reached.fewest(&table), table };
    Small { n, k, most, list: tables(&reached).into_iter().map(asked).collect() }
}

/// Cells of three inputs: two or three of them, or any tables.
fn by_pairs(random: &mut Random, n: usize, many: usize) -> Small {
    let k = 3;
    let mut tables = Vec::new();
    for _ in 0..many {
        tables.extend([two_cells(random, n, k), planted(random, n, k, 3), any(random, n)]);
    }
    let (two, pairs) = (Reached::new(n, k, 2), Pairs::new(n));
    let fewest =
        each_of(&tables, |table| two.fewest(table).or_else(|| pairs.carry(table).then_some(3)));
    let list = tables.into_iter().zip(fewest).map(|(table, fewest)| Asked { table, fewest });
    Small { n, k, most: 3, list: list.collect() }
}

fn planted_parts(random: &mut Random, many: usize) -> Vec<Planted> {
    let mut list = Vec::new();
    for k in 3..=SECOND.most_reads {
        for cells in [3, 4] {
            let most = 12.min(cells * (k - 1) + 1);
            let mut draw = || {
                let n = random.between(k + 1, most);
                planted(random, n, k, cells)
            };
            list.push(Planted { k, cells, tables: (0..many).map(|_| draw()).collect() });
        }
    }
    list
}

fn judge(small: &[Small], planted: &[Planted], output: &[u8]) -> Result<(), String> {
    let mut left = output;
    println!("  n  K   tables   up to  known fewest      equal");
    for Small { n, k, most, list } in small {
        let (mut known, mut equal) = (0, 0);
        for Asked { table, fewest } in list {
            let least = least_of(*k, table, &mut left)?;
            // What so many cells don't carry needs one more.
            if least > fewest.unwrap_or(usize::MAX) {
                let what = format!("{least} cells, and {fewest:?} carry it");
                return Err(format!("{}: {what}", about(*k, table)));
            }
            known += usize::from(fewest.is_some());
            equal += usize::from(*fewest == Some(least));
        }
        println!("{n:>3}{k:>3}{:>9}{most:>8}{known:>15}{equal:>11}", list.len());
    }
    judge_planted(planted, &mut left)?;
    nothing_left(left)?;
    println!("no table has fewer cells than the bound");
    Ok(())
}

fn judge_planted(planted: &[Planted], left: &mut &[u8]) -> Result<(), String> {
    println!("  K  made of   tables  so many are least  make's count is least   more    refused");
    for Planted { k, cells, tables } in planted {
        let (mut tight, mut equal, mut more, mut refused) = (0, 0, 0, 0);
        for table in tables {
            let least = least_of(*k, table, left)?;
            let answer = next_answer(&make_case(*k, table), left)?;
            let count = usize::from(answer[1]);
            match answer[0] {
                DONE if count == least => equal += 1,
                DONE if count > least => more += 1,
                NO_SPLIT => refused += 1,
                _ => return Err(format!("{}: {least}, and make {count}", about(*k, table))),
            }
            if least > *cells {
                return Err(format!("{}: {least}, and {cells} carry it", about(*k, table)));
            }
            tight += usize::from(least == *cells);
        }
        let many = tables.len();
        println!("{k:>3}{cells:>9}{many:>9}{tight:>19}{equal:>23}{more:>7}{refused:>11}");
    }
    Ok(())
}

/// What the command says, with what follows from how many inputs count alone.
fn least_of(k: usize, table: &Table, left: &mut &[u8]) -> Result<usize, String> {
    let answer = next_answer(&case(k, table), left)?;
    let least = usize::from(answer[1]);
    let one = size(table.counting()) <= k;
    if answer[0] != DONE || (least == 1) != one || least == 0 {
        return Err(format!("{}: answered {}", about(k, table), hex(answer)));
    }
    Ok(least)
}
