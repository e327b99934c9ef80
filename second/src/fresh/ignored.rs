//! Tables that ignore inputs: none to all of them, in every place.

use super::tables::{any, chain_for, spread, Kind};
use super::Fresh;
use crate::calls;
use crate::cell::{MOST_READS, SHEET_BYTES};
use crate::random::Random;
use crate::refusals::WORK_BYTES;
use crate::sets::{all, size};
use crate::table::{Table, MOST_INPUTS};

/// Up to here every set of ignored inputs is drawn.
const EVERY_SET: usize = 5;

/// The sets of inputs that count: all sets for a small n; beyond that each input
/// ignored alone, each counting alone, and for each size a set of that size.
fn sets(random: &mut Random, n: usize) -> Vec<u16> {
    if n <= EVERY_SET {
        return (0..=all(n)).collect();
    }
    let one_ignored = (0..n).map(|input| all(n) & !(1 << input));
    let one_counts = (0..n).map(|input| 1 << input);
    let sizes = (0..=n).map(|size| random.part_of(all(n), size));
    one_ignored.chain(one_counts).chain(sizes).collect()
}

/// A table over so many inputs that depends on each; where none was met in some
/// draws, an XOR.
fn depends_on_all(random: &mut Random, inputs: usize, k: usize) -> Table {
    for _ in 0..10 {
        let table = match random.below(4) {
            0 => any(random, inputs),
            1 => random.pick(&[Kind::And, Kind::Or, Kind::Symmetric]).draw(random, inputs).table,
            _ => chain_for(random, inputs, k).table,
        };
        if table.counting() == all(inputs) {
            return table;
        }
    }
    Kind::Xor.draw(random, inputs).table
}

/// A table of n inputs of which exactly the members of a set count.
pub fn table(random: &mut Random, n: usize, set: u16, k: usize) -> Table {
    let inner = match size(set) {
        0 => Kind::Constant.draw(random, 0).table,
        inputs => depends_on_all(random, inputs, k),
    };
    spread(&inner, n, set)
}

pub fn cases(random: &mut Random) -> Vec<Fresh> {
    let mut list = Vec::new();
    for n in 1..=MOST_INPUTS {
        for set in sets(random, n) {
            // Where much is to be searched, cells are small.
            let most = if size(set) > 9 { 2 } else { MOST_READS };
            let k = random.between(2, most);
            let bytes = table(random, n, set, k).to_bytes();
            let tags = tags(n, size(set), k);
            let (n, k) = (n as u64, k as u64);
            let find = calls::find::case(n, k, bytes.clone(), WORK_BYTES);
            let make = calls::make::case(n, k, bytes, SHEET_BYTES, WORK_BYTES);
            list.extend([find, make].map(|case| Fresh { case, tags: tags.clone() }));
        }
    }
    list
}

fn tags(n: usize, counting: usize, k: usize) -> Vec<String> {
    let ignored = match n - counting {
        0 => "none",
        1 => "one",
        many if many == n => "all",
        _ => "several",
    };
    let mut tags = vec![format!("inputs ignored: {ignored}")];
    if counting <= k && k < n {
        tags.push("inputs ignored: at most K are left".to_string());
    }
    tags
}
