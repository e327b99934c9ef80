//! The few cases with 13 to 16 inputs that need a search: chosen so that the
//! search ends early, or K is small and there is little to search.

use super::tables::{chain_for, compose, Drawn, Kind};
use super::Fresh;
use crate::calls;
use crate::cell::SHEET_BYTES;
use crate::random::Random;
use crate::refusals::WORK_BYTES;

pub fn cases(random: &mut Random) -> Vec<Fresh> {
    let mut list = Vec::new();
    let and = Kind::And.draw(random, 16);
    list.push(find("AND of 16", &and, 6));
    for (n, own, shared) in [(16, 6, 0), (16, 5, 1), (16, 4, 2), (14, 3, 3), (13, 2, 4)] {
        let drawn = compose(random, n, own, shared);
        list.push(find("composition", &drawn, 6));
    }
    for (n, k) in [(16, 6), (14, 6), (15, 5), (16, 4), (16, 2), (13, 3)] {
        let drawn = chain_for(random, n, k);
        list.push(make("chain of compositions", &drawn, k));
    }
    for k in [2, 3, 6] {
        let drawn = Kind::Xor.draw(random, 16);
        list.push(make("XOR of 16", &drawn, k));
    }
    for n in 13..=16 {
        for kind in [Kind::Random, Kind::Majority, Kind::NearChain, Kind::Ignored] {
            let drawn = kind.draw(random, n);
            list.push(find(&kind.name(), &drawn, 2));
            list.push(make(&kind.name(), &drawn, 2));
        }
    }
    list
}

fn tags(name: &str) -> Vec<String> {
    vec![format!("large table: {name}")]
}

fn find(name: &str, drawn: &Drawn, k: u64) -> Fresh {
    let n = drawn.table.inputs as u64;
    let table = drawn.table.to_bytes();
    Fresh { case: calls::find::case(n, k, table, WORK_BYTES), tags: tags(name) }
}

fn make(name: &str, drawn: &Drawn, k: usize) -> Fresh {
    let n = drawn.table.inputs as u64;
    let table = drawn.table.to_bytes();
    let case = calls::make::case(n, k as u64, table, SHEET_BYTES, WORK_BYTES);
    Fresh { case, tags: tags(name) }
}
