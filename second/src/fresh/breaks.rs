//! Named splits that break at a known place: up to some b at most 2^r columns
//! each (r first cells), there so many as was chosen, and anything beyond.

use super::Fresh;
use crate::calls;
use crate::cell::MOST_READS;
use crate::random::Random;
use crate::sets::{all, gather, size};
use crate::several::{Several, MOST_FIRST};
use crate::split::{Break, Split};
use crate::table::Table;

/// A table with a split of it, and where that breaks.
pub struct Broken {
    pub table: Table,
    pub split: Split,
    pub at: Break,
}

/// The first and the last b, and one between; few columns, many, and as many as there can be.
pub fn splits(random: &mut Random, r: usize) -> Vec<Broken> {
    let mut list = Vec::new();
    let least = (1 << r) + 1;
    for own in r + 1..=MOST_READS {
        for shared in 0..=MOST_READS - own {
            for i in 0..8 {
                let free = random.between(if r == 1 { 1 } else { 2 }, 4);
                let last = (1 << shared) - 1;
                let b = [0, last, random.below(last + 1)][i % 3];
                let most = most_columns(own, free);
                let columns = [least, most, random.between(least, most)][i / 3];
                list.push(draw(random, r, [own, shared, free], Break { b, columns }));
            }
        }
    }
    list
}

/// As many as A has assignments, or as there are functions of C.
fn most_columns(own: usize, free: usize) -> usize {
    let functions = 1usize << (1 << free);
    functions.min(1 << own)
}

fn draw(random: &mut Random, r: usize, [own, shared, free]: [usize; 3], at: Break) -> Broken {
    let n = own + shared + free;
    let both = random.part_of(all(n), own + shared);
    let shared = random.part_of(both, shared);
    let split = Split { own: both & !shared, shared };
    let columns: Vec<Vec<usize>> = (0..1 << size(shared))
        .map(|b| {
            let count = match b {
                b if b < at.b => random.between(1, 1 << r),
                b if b == at.b => at.columns,
                _ => random.between(1, most_columns(own, free)),
            };
            columns_of(random, [own, free], count)
        })
        .collect();
    let table = Table::from_rule(n, |x| {
        let column = columns[gather(x, split.shared)][gather(x, split.own)];
        (column >> gather(x, split.free(n))) & 1 == 1
    });
    Broken { table, split, at }
}

/// A column, as a number, for each assignment of A: so many different ones.
fn columns_of(random: &mut Random, [own, free]: [usize; 2], count: usize) -> Vec<usize> {
    let mut different: Vec<usize> = Vec::new();
    while different.len() < count {
        let column = random.below(1 << (1 << free));
        if !different.contains(&column) {
            different.push(column);
        }
    }
    let more = (count..1 << own).map(|_| random.pick(&different)).collect();
    let mut list = [different, more].concat();
    random.shuffle(&mut list);
    list
}

pub fn cases(random: &mut Random) -> Vec<Fresh> {
    let mut list = Vec::new();
    for r in 1..=MOST_FIRST {
        for broken in splits(random, r) {
            let Broken { table, split, .. } = &broken;
            let k = random.between(size(split.own | split.shared), MOST_READS) as u64;
            let room = Table::byte_length(Several { r, split: *split }.inputs_of_h(table.inputs));
            let (n, bytes) = (table.inputs as u64, table.to_bytes());
            let several = calls::try_several::case([n, k, r as u64], *split, bytes.clone(), room);
            let tags = tags(r, &broken);
            list.push(Fresh { case: several, tags: tags.clone() });
            if r == 1 {
                let case = calls::try_split::case(n, k, *split, bytes, room);
                list.push(Fresh { case, tags });
            }
        }
    }
    list
}

fn tags(r: usize, broken: &Broken) -> Vec<String> {
    let columns = match broken.at.columns {
        3 => "3",
        4..=15 => "4 to 15",
        16..=63 => "16 to 63",
        _ => "64",
    };
    let b = if broken.at.b == 0 { "0" } else { "above 0" };
    vec![
        format!("a split breaks: b {b}"),
        format!("a split breaks: columns {columns}"),
        format!("a split breaks: first cells {r}"),
    ]
}
