//! Make with K = 2 from outside: it must find every tree of two-input nodes.

use super::arguments::Arguments;
use super::asking::{ask, carried_count, make_case, next_answer, nothing_left};
use crate::batch::case_bytes;
use crate::describe::hex;
use crate::fresh::tables::{any, flip_bits, spread};
use crate::fresh::trees::tree;
use crate::random::Random;
use crate::refusals::{DONE, NO_SPLIT};
use crate::sets::{all, size};
use crate::table::{Table, MOST_INPUTS};
use crate::trees::{Trees, MOST_BUILT};

/// The cell size.
const PAIRS: usize = 2;

/// How often inputs of a large table are fixed, to see that it has no tree.
const TRIES: usize = 100;

/// A table that was made up, whether as a tree, and an assignment where it may
/// fail to be one.
struct Sampled {
    table: Table,
    made_as_tree: bool,
    near: usize,
}

/// A table, and whether it has a tree, where that is known.
struct Asked {
    table: Table,
    tree: Option<bool>,
}

/// How many tables make wrote a sheet of, how many it refused that have no tree,
/// and how many it refused of which nothing is known.
#[derive(Default)]
struct Counts {
    made: usize,
    refused: usize,
    unknown: usize,
}

pub fn trees(arguments: &Arguments) -> Result<(), String> {
    let wanted = arguments.wanted_command()?;
    let seed = arguments.seed()?;
    let sample = arguments.number("--cases", 2000)? as usize;
    println!("trees, K = {PAIRS}: seed {seed}, {sample} sampled tables of 5 inputs");
    let groups = groups(&mut Random::new(seed), sample);
    let cases = groups.iter().flatten().map(|asked| make_case(PAIRS, &asked.table));
    let batch: Vec<u8> = cases.flat_map(|case| case_bytes(&case)).collect();
    let output = ask(wanted, &batch)?;
    let mut left = &output[..];
    println!("  n   tables       made    no tree    unknown");
    for (n, group) in (1..).zip(&groups) {
        let Counts { made, refused, unknown } = judge(group, &mut left)?;
        println!("{n:>3}{:>9}{made:>11}{refused:>11}{unknown:>11}", group.len());
    }
    nothing_left(left)?;
    println!("make refuses a table exactly where no tree computes it");
    Ok(())
}

/// For each n the tables asked about: all up to 3 inputs; every tree of 4 and as
/// many others; samples beyond that, few of them where tables are long.
fn groups(random: &mut Random, sample: usize) -> Vec<Vec<Asked>> {
    (1..=MOST_INPUTS)
        .map(|n| match n {
            1..=3 => decided(&Trees::new(n), every_table(n)),
            4 => {
                let trees = Trees::new(n);
                let mut tables = trees.every();
                tables.extend((0..tables.len()).map(|i| sampled(random, n, i).table));
                decided(&trees, tables)
            }
            MOST_BUILT => {
                let tables = (0..sample).map(|i| sampled(random, n, i).table).collect();
                decided(&Trees::new(n), tables)
            }
            _ => beyond(random, n, sample >> (n - 3)),
        })
        .collect()
}

fn every_table(n: usize) -> Vec<Table> {
    (0..1u64 << (1 << n)).map(|number| Table::from_number(n, number)).collect()
}

/// Decided by brute force.
fn decided(trees: &Trees, tables: Vec<Table>) -> Vec<Asked> {
    let decide = |table: Table| Asked { tree: Some(trees.computes(&table)), table };
    tables.into_iter().map(decide).collect()
}

/// Tables of more inputs: trees by the way they were made, and others that lose
/// every tree when all but five of their inputs are fixed.
fn beyond(random: &mut Random, n: usize, count: usize) -> Vec<Asked> {
    let trees = Trees::new(MOST_BUILT);
    let known = |i: usize| {
        let Sampled { table, made_as_tree, near } = sampled(random, n, i);
        let tree = match made_as_tree {
            true => Some(true),
            false => trees.refuted(random, &table, near, TRIES).then_some(false),
        };
        Asked { table, tree }
    };
    (0..count.max(12)).map(known).collect()
}

/// By turns a tree, the same over some of the inputs only, a tree with a bit or
/// two flipped, and a random table.
fn sampled(random: &mut Random, n: usize, i: usize) -> Sampled {
    let as_tree = |table: Table| Sampled { table, made_as_tree: true, near: 0 };
    match i % 4 {
        0 => as_tree(tree(random, n)),
        1 => {
            let inputs = random.between(1, n);
            let set = random.part_of(all(n), inputs);
            as_tree(spread(&tree(random, inputs), n, set))
        }
        2 => {
            let whole = tree(random, n);
            let mut table = whole.clone();
            flip_bits(random, &mut table);
            let flipped = (0..1 << n).find(|&x| table.bits[x] != whole.bits[x]);
            Sampled { table, made_as_tree: false, near: flipped.unwrap_or(0) }
        }
        _ => Sampled { table: any(random, n), made_as_tree: false, near: random.below(1 << n) },
    }
}

fn judge(group: &[Asked], left: &mut &[u8]) -> Result<Counts, String> {
    let mut counts = Counts::default();
    for asked in group {
        let answer = next_answer(&make_case(PAIRS, &asked.table), left)?;
        judge_one(asked, answer, &mut counts).map_err(|what| {
            let (n, table) = (asked.table.inputs, hex(&asked.table.to_bytes()));
            format!("n={n} table {table}: {what}\n  make answered {}", hex(answer))
        })?;
    }
    Ok(counts)
}

/// Where there is a tree make must write a sheet, and else refuse. A sheet has a
/// cell less than there are inputs that count, and one at least.
fn judge_one(asked: &Asked, answer: &[u8], counts: &mut Counts) -> Result<(), String> {
    match (answer[0], answer[1] as usize, asked.tree) {
        (DONE, _, Some(false)) => return Err("a sheet of what has no tree".to_string()),
        (DONE, count, _) => {
            let cells = carried_count(PAIRS, &asked.table, count, &answer[2..])?;
            let fewest = size(asked.table.counting()).saturating_sub(1).max(1);
            if cells != fewest {
                return Err(format!("{cells} cells, and {fewest} are the fewest"));
            }
            counts.made += 1;
        }
        (NO_SPLIT, 0, Some(true)) => return Err("a tree is refused".to_string()),
        (NO_SPLIT, 0, Some(false)) => counts.refused += 1,
        (NO_SPLIT, 0, None) => counts.unknown += 1,
        (number, count, _) => return Err(format!("number {number}, count {count}")),
    }
    Ok(())
}
