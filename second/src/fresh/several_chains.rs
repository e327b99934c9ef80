//! Tables for which one first cell is often too few at some step, and several do.

use super::gate::{self, Ask};
use super::tables::{flip_bits, several_for, Drawn, Kind};
use super::Fresh;
use crate::calls;
use crate::cell::{MOST_READS, SHEET_BYTES};
use crate::random::Random;
use crate::refusals::WORK_BYTES;
use crate::table::Table;

pub fn draw(random: &mut Random) -> Ask {
    let (table, k, name) = match random.below(20) {
        0..=5 => built(random),
        6 => tangled(random),
        7 | 13 => counting(random),
        8 | 9 => symmetric(random),
        10..=12 => {
            let (mut table, k, _) = built(random);
            flip_bits(random, &mut table);
            (table, k, "near miss of several first cells a step")
        }
        _ => {
            let mut ask = gate::draw(random, false);
            ask.tags.push("made of: anything".to_string());
            return ask;
        }
    };
    let drawn = Drawn { table, planted: None, suits: Some(k) };
    let mut ask = gate::about(random, &drawn, MOST_READS);
    if !random.one_in(8) {
        ask.k = k as u64;
    }
    ask.tags = vec![format!("made of: {name}")];
    ask
}

/// One, two or three first cells at each step.
fn built(random: &mut Random) -> (Table, usize, &'static str) {
    let k = random.between(3, MOST_READS);
    let n = random.between(k + 1, 9);
    (several_for(random, n, k, None), k, "several first cells a step")
}

/// Three first cells for four inputs, step by step; a chain seldom finds its way back.
fn tangled(random: &mut Random) -> (Table, usize, &'static str) {
    let n = random.between(8, 10);
    (several_for(random, n, 4, Some([3, 4])), 4, "three first cells for four inputs")
}

/// Small cells count many inputs: about as many records as a sheet holds, or more.
fn counting(random: &mut Random) -> (Table, usize, &'static str) {
    let (n, k) = (random.pick(&[11, 12, 12]), random.between(3, 4));
    let kind = random.pick(&[Kind::Majority, Kind::Symmetric]);
    (kind.draw(random, n).table, k, "counting many inputs")
}

fn symmetric(random: &mut Random) -> (Table, usize, &'static str) {
    let (n, k) = (random.between(4, 10), random.between(3, MOST_READS));
    (Kind::Symmetric.draw(random, n).table, k, "symmetric")
}

/// Counting gates, for every K and n up to a limit.
pub fn cases(random: &mut Random) -> Vec<Fresh> {
    let mut list = Vec::new();
    let sizes = (3..=MOST_READS).flat_map(|k| (k + 1..=10).map(move |n| (n, k)));
    let large = [(11, 3), (11, 4), (12, 3), (12, 4), (12, 3), (12, 4), (13, 4)];
    for (n, k) in sizes.chain(large) {
        for kind in [Kind::Majority, Kind::Symmetric] {
            let table = kind.draw(random, n).table.to_bytes();
            let numbers = [n as u64, k as u64, random.below(5) as u64];
            let case = calls::make_any::case(numbers, table, SHEET_BYTES, WORK_BYTES);
            list.push(Fresh { case, tags: vec!["made of: counting, every K and n".into()] });
        }
    }
    list
}
