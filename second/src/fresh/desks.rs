//! Sheets whose records are one desk's, and sheets in which some are another's.

use super::sheets::Kind;
use super::tables::any;
use super::Fresh;
use crate::calls;
use crate::case::Case;
use crate::cell::{Edition, FIRST, LAST_DESK, SECOND};
use crate::random::Random;
use crate::table::MOST_INPUTS;
use crate::times::Time;

/// A sheet for n inputs, and the first record that is bad for its desk's sake.
pub struct Of {
    pub n: usize,
    pub sheet: Vec<u8>,
    pub bad: Option<usize>,
    name: &'static str,
}

/// Of all pairs of desks the first in all records but one, which is not the
/// first, and but it and those behind it; and each value of the byte that is alike in all.
pub fn sheets(random: &mut Random, edition: &Edition) -> Vec<Of> {
    let mut list = Vec::new();
    for desk in 0..=LAST_DESK {
        for other in (0..=LAST_DESK + 1).chain([128, 255]).filter(|&other| other != desk) {
            let (n, mut sheet) = drawn(random, edition);
            edition.set_desk(&mut sheet, desk);
            let bytes = edition.record_bytes;
            let records = sheet.len() / bytes;
            let index = random.between(1, records - 1);
            let behind = if random.coin() { 1 } else { records - index };
            edition.set_desk(&mut sheet[index * bytes..][..behind * bytes], other);
            list.push(Of { n, sheet, bad: Some(index), name: "one of another" });
        }
    }
    for desk in (0..=LAST_DESK + 2).chain([16, 64, 127, 128, 255]) {
        let (n, mut sheet) = drawn(random, edition);
        edition.set_desk(&mut sheet, desk);
        let bad = (desk > LAST_DESK).then_some(0);
        list.push(Of { n, sheet, bad, name: if bad.is_none() { "alike" } else { "none" } });
    }
    list
}

/// At least two records, each but the last read.
fn drawn(random: &mut Random, edition: &Edition) -> (usize, Vec<u8>) {
    let n = random.between(1, 8);
    loop {
        let sheet = Kind::Handmade.draw_read_in(random, edition, n);
        if sheet.len() > edition.record_bytes {
            return (n, sheet);
        }
    }
}

/// Every call that reads a sheet.
pub fn cases(random: &mut Random) -> Vec<Fresh> {
    let mut list = Vec::new();
    for edition in [&FIRST, &SECOND] {
        for Of { n, sheet, name, .. } in sheets(random, edition) {
            let numbers = [n as u64, random.below(1 << n) as u64];
            let table = any(random, n).to_bytes();
            let mut cases = calls::all_that_read(edition, numbers, &table, &sheet);
            if *edition == FIRST {
                cases.extend(known_in_the_first_alone(n as u64, table, sheet));
            }
            let tags = vec![format!("desks of the records: {name}")];
            list.extend(cases.into_iter().map(|case| Fresh { case, tags: tags.clone() }));
        }
    }
    list
}

fn known_in_the_first_alone(n: u64, table: Vec<u8>, sheet: Vec<u8>) -> Vec<Case> {
    let times = [Time { kind: 1, first: 0.5, second: 0.0 }; MOST_INPUTS];
    vec![
        calls::settle::case(n, sheet.clone(), 1.0, &times),
        calls::slack::case(n, sheet.clone(), 1.0, &times, 100),
        calls::shorter::case(n, table, sheet.clone(), sheet),
    ]
}
