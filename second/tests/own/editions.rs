//! Two editions of the sheet.

use second::calls::rewrite::rewrite;
use second::calls::{self, run_in};
use second::case::{answer, Case, PRESET};
use second::cell::{Cell, BENCH, FIRST, SECOND};
use second::chain::chain;
use second::fresh::sheets::KINDS;
use second::fresh::tables::{self, any, chain_for};
use second::network::{first_unread, rebuild};
use second::random::Random;
use second::refusals::WORK_BYTES;
use second::split::Split;
use second::table::Table;

#[test]
fn the_numbers_of_the_editions_are_those_of_the_documents() {
    assert_eq!((FIRST.most_reads, FIRST.record_bytes, FIRST.sheet_bytes()), (6, 16, 240));
    assert_eq!((SECOND.most_reads, SECOND.record_bytes, SECOND.sheet_bytes()), (8, 48, 720));
}

#[test]
fn a_record_of_the_second_edition_is_laid_out_as_the_document_says() {
    let mut random = Random::new(91);
    for k in 1..=8 {
        let cell = Cell { reads: (2..2 + k).collect(), table: any(&mut random, k) };
        let record = SECOND.record(&cell, 4);
        assert_eq!(record.len(), 48);
        assert_eq!(usize::from(record[0]), k);
        for place in 1..=8 {
            let signal = if place <= k { place as u8 + 1 } else { 255 };
            assert_eq!(record[place], signal);
        }
        assert_eq!(record[9], 4);
        assert_eq!(record[10..16], [0; 6]);
        for bit in 0..256 {
            let set = record[16 + bit / 8] >> (bit % 8) & 1 == 1;
            assert_eq!(set, cell.table.bits.get(bit) == Some(&true));
        }
        assert_eq!(SECOND.cell(&record, 2 + k, 4), Some(cell.clone()));
        assert_eq!(SECOND.cell(&record, 1 + k, 4), None);
        assert_eq!(SECOND.cell(&record, 2 + k, 3), None);
    }
}

#[test]
fn a_sheet_rewritten_rebuilds_the_same_table() {
    let mut random = Random::new(92);
    for i in 0..300 {
        let (n, desk) = (1 + i % 8, (i % 5) as u8);
        let mut sheet = KINDS[i % KINDS.len()].draw(&mut random, n);
        FIRST.set_desk(&mut sheet, desk);
        let cells = FIRST.read_sheet(n, &sheet).expect("a sound sheet");
        let (new, count) = match rewrite(n as u64, &sheet, 720) {
            Ok(rewritten) => rewritten,
            Err(no) => {
                assert_eq!(Some(no.place), first_unread(n, &cells));
                continue;
            }
        };
        assert_eq!((new.len(), count), (48 * cells.len(), cells.len()));
        assert_eq!(rewrite(n as u64, &sheet, 719).map_err(|no| no.number), Err(6));
        assert_eq!(rewrite(n as u64, &sheet, 721).as_ref(), Ok(&(new.clone(), count)));
        assert_eq!(SECOND.desk_of(&new), desk);
        let again = SECOND.read_sheet(n, &new).expect("a sound sheet");
        assert_eq!(rebuild(n, &again), rebuild(n, &cells));
    }
}

#[test]
fn a_sheet_of_large_cells_carries_its_table() {
    let mut random = Random::new(93);
    let mut large = 0;
    for i in 0..120 {
        let k = 7 + i % 2;
        let table = match i % 3 {
            0 => chain_for(&mut random, 9, k).table,
            _ => tables::KINDS[i % tables::KINDS.len()].draw(&mut random, 8).table,
        };
        let n = table.inputs;
        let cells = match chain(&table, k) {
            Some(cells) => cells,
            None => continue,
        };
        let sheet = SECOND.write_sheet(BENCH, &cells);
        assert_eq!(SECOND.read_sheet(n, &sheet), Ok(cells.clone()));
        assert_eq!(rebuild(n, &cells), table);
        large += usize::from(cells.iter().any(|cell| cell.reads.len() > 6));
    }
    assert!(large > 30, "{large}");
}

/// The call that is told the edition, asked as the other is, for the first.
fn told_the_first(case: &Case) -> Option<Case> {
    let call = match case.call.code {
        0x01 => &calls::try_in::CALL,
        0x02 => &calls::find_in::CALL,
        0x0C => &calls::make_in::CALL,
        0x04 => &calls::run_in::CALL,
        0x05 => &calls::rebuild_in::CALL,
        0x06 => &calls::check_in::CALL,
        _ => return None,
    };
    let numbers = [&[1], &case.numbers[..]].concat();
    Some(Case { call, numbers, ..case.clone() })
}

#[test]
fn told_the_first_edition_each_call_answers_as_before() {
    let mut random = Random::new(94);
    let mut met = 0;
    for call in calls::TABLE {
        for _ in 0..200 {
            let case = (call.fresh)(&mut random).case;
            let told = match told_the_first(&case) {
                Some(told) if case.numbers[0] < 9 || case.numbers[0] > 16 => told,
                _ => continue,
            };
            let (mut ours, before) = (answer(&told, PRESET), answer(&case, PRESET));
            if call.code == 0x01 {
                assert_eq!(ours.numbers.drain(2..5).collect::<Vec<_>>(), [0, 0, 0]);
            }
            assert_eq!(ours.numbers, before.numbers);
            assert_eq!(ours.lent, before.lent);
            met += 1;
        }
    }
    assert!(met > 900, "{met}");
}

#[test]
fn of_several_refusals_the_lowest_is_given() {
    let number = |case: &Case| answer(case, PRESET).numbers[0];
    let table = || vec![0xE8];
    let split = |own| Split { own, shared: 0 };
    let tries =
        |numbers, own, table, room| number(&calls::try_in::case(numbers, split(own), table, room));
    assert_eq!(tries([0, 0, 9], 0, vec![], 0), 1);
    assert_eq!(tries([0, 3, 3], 0, vec![], 0), 2);
    assert_eq!(tries([3, 3, 3], 0, vec![], 0), 2);
    assert_eq!(tries([1 << 32 | 1, 3, 3], 3, table(), 1), 2);
    assert_eq!(tries([1, 3, 7], 0, vec![], 0), 2);
    assert_eq!(tries([2, 3, 9], 0, vec![], 0), 2);
    assert_eq!(tries([2, 3, 8], 0, vec![], 0), 3);
    assert_eq!(tries([2, 2, 8], 0, table(), 0), 4);
    assert_eq!(tries([2, 3, 8], 1, table(), 0), 5);
    assert_eq!(tries([2, 3, 8], 3, table(), 0), 6);
    assert_eq!(tries([2, 3, 8], 3, table(), 1), 8);
    assert_eq!(tries([2, 3, 8], 7, table(), 1), 0);
    let makes =
        |numbers, table, room| number(&calls::make_in::case(numbers, table, room, WORK_BYTES));
    assert_eq!(makes([0, 0, 0, 5], vec![], 0), 1);
    assert_eq!(makes([0, 3, 3, 5], vec![], 0), 2);
    assert_eq!(makes([2, 3, 3, 5], vec![], 0), 3);
    assert_eq!(makes([2, 2, 3, 5], table(), 0), 4);
    assert_eq!(makes([2, 3, 3, 5], table(), 719), 5);
    assert_eq!(makes([2, 3, 3, 4], table(), 719), 6);
    assert_eq!(makes([1, 3, 3, 4], table(), 240), 0);
    assert_eq!(makes([2, 3, 2, 4], table(), 720), 8);
}

#[test]
fn of_several_refusals_of_a_run_the_lowest_is_given() {
    let runs = |[edition, n, x]: [u64; 3], sheet: &[u8]| {
        answer(&run_in::case(edition, n, x, sheet.to_vec()), PRESET).numbers[0]
    };
    assert_eq!(runs([3, 0, 9], &[]), 1);
    assert_eq!(runs([3, 3, 9], &[]), 2);
    assert_eq!(runs([2, 3, 9], &[0; 47]), 9);
    assert_eq!(runs([2, 3, 9], &[0; 768]), 9);
    assert_eq!(runs([2, 3, 9], &[0; 48]), 10);
    let cell = Cell { reads: vec![0, 1, 2], table: Table::from_number(3, 0x80) };
    let sheet = SECOND.write_sheet(2, &[cell.clone(), cell]);
    assert_eq!(runs([2, 3, 9], &sheet), 11);
    assert_eq!(runs([2, 3, 7], &sheet), 15);
    assert_eq!(runs([2, 3, 7], &sheet[..48]), 0);
}
