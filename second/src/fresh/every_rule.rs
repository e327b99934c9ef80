//! Every rule of the records broken, at the first, a middle and the last record
//! of a sheet: each must be refused as 10 with that record's index.

use super::sheets::{alike, middling};
use super::tables::any;
use super::Fresh;
use crate::calls;
use crate::cell::{Edition, FIRST, LAST_DESK, MOST_RECORDS, SECOND, UNUSED};
use crate::random::Random;

/// A rule broken: what it is, the byte of the record, and the value to put there,
/// from the record and the first signal that it may not read.
type Break = (&'static str, fn(&Edition, &[u8]) -> usize, fn(&Edition, &[u8], u8) -> u8);

/// For records that read 2 to 5 signals.
const BREAKS: [Break; 15] = [
    ("k is 0", |_, _| 0, |_, _, _| 0),
    ("k too large", |_, _| 0, |edition, _, _| edition.most_reads as u8 + 1),
    ("k is 255", |_, _| 0, |_, _, _| 255),
    ("reads its own signal", |_, record| last(record), |_, _, limit| limit),
    ("reads a signal far above", |_, record| last(record), |_, _, _| 200),
    ("a used place is 255", |_, record| last(record), |_, _, _| UNUSED),
    ("a signal twice", |_, _| 2, |_, record, _| record[1]),
    ("signals that fall", |_, _| 1, |_, record, _| record[2] + 1),
    ("first unused place", |_, record| last(record) + 1, |_, _, _| 254),
    ("first unused place a signal", |_, record| last(record) + 1, |_, _, limit| limit - 1),
    ("last unused place", |edition, _| edition.most_reads, |_, _, _| 0),
    ("no desk", |edition, _| edition.desk_at, |_, _, _| LAST_DESK + 1),
    ("desk is 255", |edition, _| edition.desk_at, |_, _, _| 255),
    (
        "first bit from 2^k up",
        |edition, record| edition.table_at + spare(record) / 8,
        |edition, record, _| {
            record[edition.table_at + spare(record) / 8] | 1 << (spare(record) % 8)
        },
    ),
    (
        "last bit of the table",
        |edition, _| edition.record_bytes - 1,
        |edition, record, _| record[edition.record_bytes - 1] | 128,
    ),
];

/// What the second edition has besides: zeros before the table, and a table of 32 bytes.
const BREAKS_OF_THE_SECOND: [Break; 9] = [
    ("byte 10", |_, _| 10, |_, _, _| 1),
    ("byte 11", |_, _| 11, |_, _, _| 255),
    ("byte 12", |_, _| 12, |_, _, _| 2),
    ("byte 13", |_, _| 13, |_, _, _| 4),
    ("byte 14", |_, _| 14, |_, _, _| 255),
    ("byte 15", |_, _| 15, |_, _, _| 128),
    ("bit 64 of the table", |_, _| 24, |_, _, _| 1),
    ("bit 128 of the table", |_, _| 32, |_, _, _| 1),
    ("bit 192 of the table", |_, _| 40, |_, _, _| 1),
];

/// For records of the second edition that read 7 signals, and the same for 8.
const BREAKS_OF_SEVEN: [Break; 7] = [
    ("place 7 as place 6", |_, _| 7, |_, record, _| record[6]),
    ("place 7 its own signal", |_, _| 7, |_, _, limit| limit),
    ("place 8 beyond k = 7", |_, _| 8, |_, record, _| record[7] + 1),
    ("k is 8, place 8 is 255", |_, _| 0, |_, _, _| 8),
    ("desk of a cell of 7", |_, _| 9, |_, _, _| UNUSED),
    ("bit 128 beyond k = 7", |_, _| 32, |_, record, _| record[32] | 1),
    ("bit 255 beyond k = 7", |_, _| 47, |_, record, _| record[47] | 128),
];
const BREAKS_OF_EIGHT: [Break; 5] = [
    ("place 8 as place 7", |_, _| 8, |_, record, _| record[7]),
    ("place 8 its own signal", |_, _| 8, |_, _, limit| limit),
    ("place 8 of k = 8 is 255", |_, _| 8, |_, _, _| UNUSED),
    ("k is 7, place 8 a signal", |_, _| 0, |_, _, _| 7),
    ("desk of a cell of 8", |_, _| 9, |_, _, _| LAST_DESK + 1),
];

/// The place of the last signal that a record reads.
fn last(record: &[u8]) -> usize {
    usize::from(record[0])
}

/// The first bit of its table that it has no entry for.
fn spare(record: &[u8]) -> usize {
    1 << record[0]
}

/// A sheet for n inputs in which the record with this index breaks a rule.
pub struct Broken {
    pub n: usize,
    pub index: usize,
    pub sheet: Vec<u8>,
    tags: Vec<String>,
}

pub fn sheets(random: &mut Random, edition: &Edition) -> Vec<Broken> {
    let middling = |random: &mut Random, n, records| middling(random, edition, n, records);
    let mut list = broken(random, edition, &BREAKS, 2, middling);
    if *edition == SECOND {
        list.extend(broken(random, edition, &BREAKS_OF_THE_SECOND, 2, middling));
        for (places, breaks) in [(7, &BREAKS_OF_SEVEN[..]), (8, &BREAKS_OF_EIGHT)] {
            let wide = |random: &mut Random, n, records| alike(random, edition, n, records, places);
            list.extend(broken(random, edition, breaks, places, wide));
        }
    }
    list
}

/// Each of these rules broken in sheets of one kind, for gates of so many inputs at least.
fn broken(
    random: &mut Random,
    edition: &Edition,
    breaks: &[Break],
    least: usize,
    draw: impl Fn(&mut Random, usize, usize) -> Vec<u8>,
) -> Vec<Broken> {
    let mut list = Vec::new();
    for (name, byte, value) in breaks {
        for (place, nth) in ["first", "middle", "last"].into_iter().enumerate() {
            let n = random.between(least, 8);
            let records = random.between(3, MOST_RECORDS);
            let index = [0, random.between(1, records - 2), records - 1][place];
            let mut sheet = draw(random, n, records);
            let record = &mut sheet[index * edition.record_bytes..][..edition.record_bytes];
            record[byte(edition, record)] = value(edition, record, (n + index) as u8);
            let tags = vec![format!("rule broken: {name}"), format!("rule broken: {nth} record")];
            list.push(Broken { n, index, sheet, tags });
        }
    }
    list
}

/// The calls that look at a sheet's records.
pub fn cases(random: &mut Random) -> Vec<Fresh> {
    let mut list = Vec::new();
    for edition in [&FIRST, &SECOND] {
        for Broken { n, sheet, tags, .. } in sheets(random, edition) {
            let x = random.below(1 << n) as u64;
            let table = any(random, n).to_bytes();
            let cases = calls::all_that_read(edition, [n as u64, x], &table, &sheet);
            list.extend(cases.into_iter().map(|case| Fresh { case, tags: tags.clone() }));
        }
    }
    list
}
