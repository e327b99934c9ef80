//! What can be asked with several first cells: tables built for them, near misses
//! of such, and tables of every other kind.

use super::bad;
use super::gate::{self, Ask, Fault};
use super::tables::{any, compose_several, flip_bits, Drawn, Kind, KINDS};
use super::Fresh;
use crate::calls;
use crate::cell::MOST_READS;
use crate::random::Random;
use crate::refusals::WORK_BYTES;
use crate::sets::{all, size};
use crate::several::{Several, MOST_FIRST};
use crate::split::Split;
use crate::table::Table;

pub const NOT_ABOVE: Fault = ("A not above r", not_above);
pub const FIRST_CELLS: Fault = ("r", bad_first_cells);

/// A sound question with at most so many inputs.
pub fn draw(random: &mut Random, most_inputs: usize) -> Ask {
    let n = if random.one_in(20) { random.between(9, most_inputs) } else { random.between(2, 8) };
    let r = random.between(1, MOST_FIRST);
    let (drawn, name) = match random.below(8) {
        0..=2 if n > r => (built(random, n, r), "built for it".to_string()),
        3 if n > r => {
            let mut drawn = built(random, n, r);
            flip_bits(random, &mut drawn.table);
            (drawn, "near miss".to_string())
        }
        4 => (Kind::Symmetric.draw(random, n), Kind::Symmetric.name()),
        _ => {
            let kind = random.pick(&KINDS);
            (kind.draw(random, n), kind.name())
        }
    };
    let mut ask = gate::about(random, &drawn, MOST_READS);
    ask.r = r as u64;
    ask.tags = vec![format!("with several first cells: {name}"), format!("first cells: {r}")];
    // Own sets above r, as far as n and K have room for them.
    let k = ask.k as usize;
    if size(ask.split.own) <= r {
        ask.split = chosen(random, drawn.table.inputs, k, r);
    }
    if size(ask.split.own) > r {
        let several = Several { r, split: ask.split };
        ask.needed = Table::byte_length(several.inputs_of_h(drawn.table.inputs));
    } else {
        ask.needed = 1;
    }
    ask
}

/// H over the outputs of r first cells, with any tables at all.
fn built(random: &mut Random, n: usize, r: usize) -> Drawn {
    let own = random.between(r + 1, MOST_READS.min(n));
    let shared = random.below((MOST_READS - own).min(n - own).min(2) + 1);
    compose_several(random, n, [own, shared], r)
}

fn chosen(random: &mut Random, n: usize, k: usize, r: usize) -> Split {
    let own_size = random.between((r + 1).min(k), k);
    let own = random.part_of(all(n), own_size);
    let shared_size = random.below(k - own_size + 1);
    let shared = random.part_of(all(n) & !own, shared_size);
    Split { own, shared }
}

/// As many own inputs as first cells, or fewer.
fn not_above(random: &mut Random, ask: &mut Ask) {
    let r = ask.r as usize;
    let many = if random.coin() { r } else { random.below(r + 1) };
    ask.split.own = random.part_of(ask.split.own, many);
}

fn bad_first_cells(random: &mut Random, ask: &mut Ask) {
    ask.r = bad::first_cells(random, ask.r);
}

/// All that can be named of some small tables, possible or not.
pub fn cases(random: &mut Random) -> Vec<Fresh> {
    let mut list = Vec::new();
    for n in 2..=5 {
        let table = match n {
            5 => Kind::Symmetric.draw(random, n).table,
            _ => any(random, n),
        };
        for (r, own, shared) in named(n) {
            let split = Split { own, shared };
            let room = Table::byte_length((n + r).saturating_sub(size(own)).max(1));
            let numbers = [n as u64, n.min(MOST_READS).max(2) as u64, r as u64];
            let case = calls::try_several::case(numbers, split, table.to_bytes(), room);
            list.push(Fresh { case, tags: vec!["every split with several first cells".into()] });
        }
    }
    for n in 4..=9 {
        for k in 3..=MOST_READS {
            let table = Kind::Symmetric.draw(random, n).table.to_bytes();
            let case = calls::find_several::case(n as u64, k as u64, table, WORK_BYTES);
            list.push(Fresh { case, tags: vec!["best with several: symmetric".into()] });
        }
    }
    list
}

fn named(n: usize) -> Vec<(usize, u16, u16)> {
    let mut list = Vec::new();
    for r in 1..=MOST_FIRST {
        for own in 0..=all(n) {
            for shared in (0..=all(n)).filter(|shared| shared & own == 0) {
                if size(own) > r || (size(own) == r && shared == 0) {
                    list.push((r, own, shared));
                }
            }
        }
    }
    list
}
