//! Make with several first cells where one isn't enough.

use second::calls::make::make;
use second::calls::make_any::{self, make_any};
use second::case::{answer, PRESET};
use second::cell::{desk_of, read_sheet, SHEET_BYTES};
use second::chain::{chain, chain_any};
use second::fresh::several_chains;
use second::fresh::tables::{any, several_for, Kind};
use second::network::{first_unread, rebuild};
use second::random::Random;
use second::refusals::WORK_BYTES;
use second::sets::{all, size};
use second::several::best_several;
use second::table::Table;

fn made(table: &Table, k: usize, desk: u64) -> Result<Vec<u8>, u8> {
    let numbers = [table.inputs as u64, k as u64, desk];
    make_any(numbers, &table.to_bytes(), SHEET_BYTES, WORK_BYTES).map(|made| made.sheet)
}

fn drawn(random: &mut Random, i: usize) -> (Table, usize) {
    let k = 3 + i / 4 % 4;
    let n = k + 1 + i / 16 % 3;
    match i % 4 {
        0 => (several_for(random, n, k, None), k),
        1 => (Kind::Symmetric.draw(random, n).table, k),
        2 => (several_for(random, n, k, Some([2, 3])), k),
        _ => (any(random, n + 2), k),
    }
}

#[test]
fn a_sheet_with_several_first_cells_carries_its_table() {
    let mut random = Random::new(111);
    let (mut several, mut single, mut none) = (0, 0, 0);
    for i in 0..240 {
        let (table, k) = drawn(&mut random, i);
        let desk = random.below(5) as u64;
        let sheet = match made(&table, k, desk) {
            Ok(sheet) => sheet,
            Err(number) => {
                assert!(number == 8 || number == 17, "{number}");
                none += 1;
                continue;
            }
        };
        let n = table.inputs;
        let cells = read_sheet(n, &sheet).expect("a sound sheet");
        assert_eq!(u64::from(desk_of(&sheet)), desk);
        assert_eq!(rebuild(n, &cells), table);
        assert_eq!(first_unread(n, &cells), None);
        assert!(cells.iter().all(|cell| cell.reads.len() <= k));
        match chain(&table, k) {
            Some(own) => {
                assert_eq!(cells, own);
                single += 1;
            }
            None => several += 1,
        }
    }
    assert!(several > 50 && single > 20 && none > 0, "{several}, {single}, {none}");
}

/// Word for word: the first cells' own signals in order, and only they are dropped.
#[test]
fn each_step_is_the_best_of_the_table_at_hand() {
    let mut random = Random::new(112);
    for i in 0..60 {
        let (table, k) = drawn(&mut random, i);
        if table.counting() != all(table.inputs) {
            continue;
        }
        let n = table.inputs;
        let (mut at_hand, mut signals, mut done) = (table.clone(), (0..n).collect::<Vec<_>>(), 0);
        let cells = match chain_any(&table, k) {
            Some(cells) => cells,
            None => continue,
        };
        while signals.len() > k {
            let best = best_several(&at_hand, k).expect("a split at every step");
            let (first, h) = best.tables(&at_hand).expect("a possible one");
            let reads = best.split.own | best.split.shared;
            let of = |mask: u16| -> Vec<usize> {
                (0..signals.len()).filter(|j| mask >> j & 1 == 1).map(|j| signals[j]).collect()
            };
            for (t, table) in first.iter().enumerate() {
                assert_eq!((&cells[done + t].reads, &cells[done + t].table), (&of(reads), table));
            }
            let mut left = of(!best.split.own);
            left.extend((0..best.r).map(|t| n + done + t));
            done += best.r;
            assert_eq!(h.inputs, signals.len() - size(best.split.own) + best.r);
            // A first cell that is needed is read: nothing is set aside on the way.
            assert_eq!(h.counting(), all(h.inputs));
            (at_hand, signals) = (h, left);
        }
        assert_eq!(cells.len(), done + 1);
        assert_eq!(cells[done].reads, signals);
        assert_eq!(cells[done].table, at_hand);
    }
}

#[test]
fn more_than_15_records_are_17_and_a_table_without_a_split_is_8() {
    let mut random = Random::new(113);
    let mut seen = [0; 18];
    for fresh in several_chains::cases(&mut random) {
        let [n, k, desk] = fresh.case.numbers();
        let bytes = &fresh.case.bytes[0];
        let told = answer(&fresh.case, PRESET);
        let number = told.numbers[0] as usize;
        seen[number] += 1;
        let single = make([1, n, k, desk], bytes, SHEET_BYTES, WORK_BYTES);
        let cells = chain_any(&Table::from_bytes(n as usize, bytes), k as usize);
        match (single, cells) {
            (Ok(single), _) => assert_eq!(told.lent[0][..single.sheet.len()], single.sheet[..]),
            (Err(_), None) => assert_eq!(number, 8),
            (Err(_), Some(cells)) if cells.len() > 15 => assert_eq!(number, 17),
            (Err(_), Some(cells)) => assert_eq!(told.numbers, [0, cells.len() as u64]),
        }
        if number != 0 {
            assert!(told.lent[0].iter().all(|&byte| byte == PRESET));
        }
        // 0, 8 and 17 clear the work area.
        assert!(told.lent[1].iter().all(|&byte| byte == 0));
    }
    assert!(seen[0] > 20 && seen[17] > 5, "{seen:?}");
}

#[test]
fn of_several_refusals_the_lowest_is_given() {
    let number = |numbers, table: &[u8], room, work| {
        let case = make_any::case(numbers, table.to_vec(), room, work);
        answer(&case, PRESET).numbers[0]
    };
    assert_eq!(number([17, 1, 5], &[], 0, 0), 1);
    assert_eq!(number([2, 7, 5], &[], 0, 0), 2);
    assert_eq!(number([2, 2, 5], &[], 0, 0), 3);
    assert_eq!(number([2, 2, 5], &[0x10], 0, 0), 4);
    assert_eq!(number([3, 2, 5], &[0xE8], 0, 0), 5);
    assert_eq!(number([3, 2, 4], &[0xE8], SHEET_BYTES - 1, WORK_BYTES), 6);
    assert_eq!(number([3, 2, 4], &[0xE8], SHEET_BYTES, WORK_BYTES - 1), 6);
    assert_eq!(number([3, 2, 4], &[0xE8], SHEET_BYTES, WORK_BYTES), 8);
}
