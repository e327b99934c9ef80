//! Check, and the inspecting program.

use second::calls::check::check;
use second::cell::{read_sheet, write_sheet, RECORD_BYTES};
use second::chain::chain;
use second::examples::requests::{HAND_WIRED, PADDED_AT_1};
use second::examples::{unhex, SHEET_OF_2};
use second::fresh::unread::{self, Padded};
use second::fresh::{every_bit, sheets, tables};
use second::inspect::inspect;
use second::network::{first_unread, rebuild};
use second::random::Random;
use second::refusals::{Refusal, NO_MATCH, NO_READER, NO_RECORD};
use second::table::Table;

fn told(table: &Table, sheet: &[u8]) -> Result<(), Refusal> {
    check(table.inputs as u64, &table.to_bytes(), sheet)
}

#[test]
fn a_sheet_is_accepted_exactly_if_it_rebuilds_the_table_and_each_cell_is_read() {
    let mut random = Random::new(21);
    let mut unread = 0;
    for i in 0..400 {
        let n = 1 + i % 8;
        let sheet = sheets::KINDS[i % sheets::KINDS.len()].draw(&mut random, n);
        let cells = read_sheet(n, &sheet).expect("a sound sheet");
        let carried = rebuild(n, &cells);
        let no = first_unread(n, &cells).map(|place| Refusal { number: NO_READER, place });
        assert_eq!(told(&carried, &sheet).err(), no);
        unread += usize::from(no.is_some());
        let mut other = carried.clone();
        let x = random.below(1 << n);
        other.bits[x] = !other.bits[x];
        assert_eq!(told(&other, &sheet), Err(Refusal { number: NO_MATCH, place: x }));
    }
    assert!(unread > 50, "{unread}");
}

/// A cell that nobody reads hides no other gate: what the sheet gives stays.
#[test]
fn a_padded_sheet_is_refused_at_its_first_unread_cell_and_gives_the_same_table() {
    let mut random = Random::new(24);
    for Padded { table, cells, first, .. } in unread::sheets(&mut random) {
        assert_eq!(rebuild(table.inputs, &cells), table);
        let no = Refusal { number: NO_READER, place: first };
        assert_eq!(told(&table, &write_sheet(&cells)), Err(no));
    }
}

#[test]
fn every_made_sheet_is_accepted() {
    let mut random = Random::new(22);
    for i in 0..400 {
        let table = tables::KINDS[i % tables::KINDS.len()].draw(&mut random, 7).table;
        if let Some(cells) = chain(&table, 2 + i % 5) {
            assert_eq!(told(&table, &write_sheet(&cells)), Ok(()));
        }
    }
}

/// What a flipped bit of a table must give: 10 if the record has no such entry,
/// else 12 at the first assignment that comes out differently, if there is one.
fn expected(made: &every_bit::Made, bit: usize) -> Result<(), Refusal> {
    let n = made.table.inputs;
    let record = bit / 8 / RECORD_BYTES;
    let entry = bit % (RECORD_BYTES * 8) - 64;
    if entry >= 1 << made.sheet[record * RECORD_BYTES] {
        return Err(Refusal { number: NO_RECORD, place: record });
    }
    let cells = read_sheet(n, &every_bit::flipped(&made.sheet, bit)).expect("a sound sheet");
    let given = rebuild(n, &cells).bits;
    match given.iter().zip(&made.table.bits).position(|(given, wanted)| given != wanted) {
        Some(place) => Err(Refusal { number: NO_MATCH, place }),
        None => Ok(()),
    }
}

#[test]
fn every_bit_of_a_table_is_judged_by_what_it_does() {
    let mut random = Random::new(23);
    let mut seen = [0; 13];
    for made in every_bit::sheets(&mut random) {
        for bit in (0..made.sheet.len() * 8).filter(|bit| bit / 8 % RECORD_BYTES >= 8) {
            let given = told(&made.table, &every_bit::flipped(&made.sheet, bit));
            assert_eq!(given, expected(&made, bit));
            seen[given.map_or_else(|no| usize::from(no.number), |()| 0)] += 1;
        }
    }
    assert!(seen[10] > 100 && seen[12] > 10, "{seen:?}");
}

#[test]
fn of_several_refusals_the_lowest_is_given() {
    let and = unhex(SHEET_OF_2);
    let mut bad = and.clone();
    bad[7] = 1;
    let number = |n, table: &[u8], sheet: &[u8]| check(n, table, sheet).map_err(|no| no.number);
    assert_eq!(number(0, &[], &[]), Err(1));
    assert_eq!(number(1 << 32 | 3, &[0x80], &and), Err(1));
    assert_eq!(number(2, &[0x10, 0], &[]), Err(3));
    assert_eq!(number(3, &[], &bad), Err(3));
    assert_eq!(number(2, &[0x10], &[]), Err(4));
    assert_eq!(number(2, &[0x10], &bad), Err(4));
    assert_eq!(number(3, &[0x17], &bad[..31]), Err(9));
    assert_eq!(number(3, &[0x17], &bad.repeat(8)), Err(9));
    assert_eq!(number(3, &[0x17], &bad), Err(10));
    assert_eq!(number(3, &[0x17], &and), Err(12));
    assert_eq!(number(3, &[0x17], &unhex(PADDED_AT_1)), Err(12));
    assert_eq!(number(3, &[0x80], &unhex(PADDED_AT_1)), Err(15));
    assert_eq!(number(3, &[0x80], &and), Ok(()));
}

#[test]
fn the_inspecting_program_prints_number_and_place() {
    let print = |parts: &[&[u8]]| String::from_utf8(inspect(&parts.concat())).expect("text");
    assert_eq!(print(&[&[3, 0xE8], &unhex(HAND_WIRED)]), "0 0");
    assert_eq!(print(&[&[3, 0x80], &unhex(HAND_WIRED)]), "12 3");
    assert_eq!(print(&[]), "1 0");
    assert_eq!(print(&[&[17]]), "1 0");
    assert_eq!(print(&[&[16], &[0; 8191]]), "3 0");
    assert_eq!(print(&[&[16], &[0; 8192]]), "9 0");
}
