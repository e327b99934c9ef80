//! What is measured: for each call, cases that grow with n.

use crate::best::best;
use crate::calls;
use crate::case::Case;
use crate::cell::{read_sheet, write_sheet, MOST_READS, SHEET_BYTES};
use crate::chain::chain;
use crate::fresh::sheets;
use crate::fresh::tables::{any, chain_for, compose, compose_parity, flip_bits, spread};
use crate::network::rebuild;
use crate::random::Random;
use crate::refusals::{DONE, NO_NEED, NO_SPLIT, WORK_BYTES};
use crate::sets::all;
use crate::table::Table;

/// Up to here it is cheap to check that a near miss has no split.
const CHECKED_INPUTS: usize = 12;

/// One thing to measure: its name, the sizes at which it is, how a case of it
/// is drawn, and the number that it must give.
pub struct Subject {
    pub name: &'static str,
    pub sizes: &'static [usize],
    pub draw: fn(&mut Random, usize) -> Case,
    pub expected: u8,
}

const SIZES: &[usize] = &[8, 10, 12, 14, 16];
/// For what takes a minute at n = 16.
const SIZES_OF_SLOW: &[usize] = &[8, 10, 12, 14];

pub fn subjects() -> Vec<Subject> {
    vec![
        none("find, no split, random", SIZES, |random, n| find(any(random, n))),
        none("find, no split, near miss", SIZES, |random, n| find(near(random, n))),
        none("find, no split, sparse", SIZES, |random, n| find(sparse(random, n))),
        none("find, no split, XOR but the last row", SIZES_OF_SLOW, |_, n| find(nearly_xor(n))),
        Subject { name: "find, 6 inputs count", sizes: SIZES, draw: find_few, expected: NO_NEED },
        done("try, 4 own and 2 shared", try_planted),
        done("make, AND, K = 6", |_, n| make(and(n), MOST_READS)),
        done("make, XOR, K = 2", |_, n| make(xor(n), 2)),
        done("run, 15 records", run_longest),
        done("rebuild, 15 records", rebuild_longest),
        done("rebuild, made with K = 2", rebuild_chain),
        done("check, 15 records", check_longest),
    ]
}

type Draw = fn(&mut Random, usize) -> Case;

fn none(name: &'static str, sizes: &'static [usize], draw: Draw) -> Subject {
    Subject { name, sizes, draw, expected: NO_SPLIT }
}

fn done(name: &'static str, draw: Draw) -> Subject {
    Subject { name, sizes: SIZES, draw, expected: DONE }
}

/// A table of one of the kinds that `second tables` knows.
pub fn table_of_kind(random: &mut Random, kind: &str, n: usize) -> Result<Table, String> {
    match kind {
        "random" => Ok(any(random, n)),
        "split" => {
            let own = random.between(2, MOST_READS.min(n - 1));
            let shared = random.below((MOST_READS - own).min(n - own) + 1);
            Ok(compose(random, n, own, shared).table)
        }
        "near" => Ok(near(random, n)),
        "sparse" => Ok(sparse(random, n)),
        _ => Err(format!("{kind} is no kind of table")),
    }
}

/// A composition with one or two bits flipped, so that it has no split any more
/// (checked where that is cheap, and likely elsewhere).
fn near(random: &mut Random, n: usize) -> Table {
    loop {
        let own = random.between(2, MOST_READS.min(n - 2));
        let mut table = compose_parity(random, n, own).table;
        flip_bits(random, &mut table);
        let unchecked = n > CHECKED_INPUTS || n <= MOST_READS;
        if unchecked || best(&table, MOST_READS).is_none() {
            return table;
        }
    }
}

/// A few ones among zeros: nearly all columns are alike, so that each candidate
/// is looked at for long before it fails.
fn sparse(random: &mut Random, n: usize) -> Table {
    let mut table = Table::from_rule(n, |_| false);
    for _ in 0..4 * n {
        let x = random.below(table.bits.len());
        table.bits[x] = true;
    }
    table
}

fn and(n: usize) -> Table {
    Table::from_rule(n, |x| x + 1 == 1 << n)
}

fn xor(n: usize) -> Table {
    Table::from_rule(n, |x| x.count_ones() % 2 == 1)
}

/// Every split of an XOR is possible, and the flipped row is the last that a
/// search comes to: the slowest kind that was found.
fn nearly_xor(n: usize) -> Table {
    let mut table = xor(n);
    let last = table.bits.len() - 1;
    table.bits[last] ^= true;
    table
}

fn find(table: Table) -> Case {
    calls::find::case(table.inputs as u64, MOST_READS as u64, table.to_bytes(), WORK_BYTES)
}

/// A random table over six of the inputs.
fn find_few(random: &mut Random, n: usize) -> Case {
    let inner = any(random, MOST_READS);
    let set = random.part_of(all(n), MOST_READS);
    find(spread(&inner, n, set))
}

fn try_planted(random: &mut Random, n: usize) -> Case {
    let drawn = compose(random, n, 4, 2);
    let split = drawn.planted.expect("a planted split");
    let room = Table::byte_length(split.inputs_of_h(n));
    calls::try_split::case(n as u64, MOST_READS as u64, split, drawn.table.to_bytes(), room)
}

fn make(table: Table, k: usize) -> Case {
    calls::make::case(table.inputs as u64, k as u64, table.to_bytes(), SHEET_BYTES, WORK_BYTES)
}

fn run_longest(random: &mut Random, n: usize) -> Case {
    let sheet = sheets::Kind::Longest.draw_read(random, n);
    let x = random.below(1 << n) as u64;
    calls::run::case(n as u64, x, sheet)
}

fn rebuild_longest(random: &mut Random, n: usize) -> Case {
    let sheet = sheets::Kind::Longest.draw_read(random, n);
    calls::rebuild::case(n as u64, sheet, Table::byte_length(n))
}

/// The same sheets as in the rows of rebuild, each with the table it carries.
fn check_longest(random: &mut Random, n: usize) -> Case {
    let sheet = sheets::Kind::Longest.draw_read(random, n);
    let cells = read_sheet(n, &sheet).expect("a sound sheet");
    calls::check::case(n as u64, rebuild(n, &cells).to_bytes(), sheet)
}

fn rebuild_chain(random: &mut Random, n: usize) -> Case {
    let table = chain_for(random, n, 2).table;
    let sheet = chain(&table, 2).map(|cells| write_sheet(&cells)).unwrap_or_default();
    calls::rebuild::case(n as u64, sheet, Table::byte_length(n))
}
