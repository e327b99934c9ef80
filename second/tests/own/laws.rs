//! Laws that hold for every table, checked on small and on random ones.

use second::best::{best, candidates, order};
use second::calls::try_split;
use second::carry::{Networks, Reads, Wiring};
use second::case::{answer, PRESET};
use second::cell::{read_sheet, write_sheet, FIRST, SECOND};
use second::chain::chain;
use second::fresh::breaks::{self, Broken};
use second::fresh::{every_rule, networks, sheets, tables};
use second::network::{rebuild, run};
use second::random::Random;
use second::sets::{all, assignments, gather, size};
use second::several::MOST_FIRST;
use second::split::{first_break, pair, possible, Split};
use second::table::Table;

fn every_table(n: usize) -> impl Iterator<Item = Table> {
    (0..1u64 << (1 << n)).map(move |number| Table::from_number(n, number))
}

/// The definition of a possible split, with no word of columns: some D and
/// some H, any tables at all, give F everywhere.
fn possible_by_definition(table: &Table, split: Split) -> bool {
    let reads = split.own | split.shared;
    let rest = split.shared | split.free(table.inputs);
    (0..1u64 << (1 << size(reads))).any(|d| {
        let mut h = vec![None; 2 << size(rest)];
        table.bits.iter().enumerate().all(|(x, &bit)| {
            let d_bit = (d >> gather(x, reads)) as usize & 1;
            *h[gather(x, rest) | d_bit << size(rest)].get_or_insert(bit) == bit
        })
    })
}

#[test]
fn two_colours_agree_with_the_definition() {
    for table in every_table(3) {
        for &split in candidates(3, 3) {
            assert_eq!(possible(&table, split), possible_by_definition(&table, split));
        }
    }
    let mut random = Random::new(1);
    for _ in 0..60 {
        let table = tables::compose(&mut random, 4, 2, 1).table;
        for &split in candidates(4, 3) {
            assert_eq!(possible(&table, split), possible_by_definition(&table, split));
        }
    }
}

#[test]
fn a_split_is_possible_exactly_if_nothing_breaks_it() {
    let mut random = Random::new(14);
    let mut broken = 0;
    for i in 0..200 {
        let table = tables::KINDS[i % tables::KINDS.len()].draw(&mut random, 5).table;
        for &split in candidates(table.inputs, 4) {
            let at = first_break(&table, split, 2);
            assert_eq!(possible(&table, split), at.is_none());
            broken += usize::from(at.is_some());
        }
    }
    assert!(broken > 1000, "{broken}");
}

#[test]
fn a_split_breaks_where_it_was_broken() {
    let mut random = Random::new(15);
    for _ in 0..5 {
        for r in 1..=MOST_FIRST {
            for Broken { table, split, at } in breaks::splits(&mut random, r) {
                assert_eq!(first_break(&table, split, 1 << r), Some(at));
            }
        }
    }
}

#[test]
fn the_pair_gives_the_table_back_everywhere() {
    let mut random = Random::new(2);
    for i in 0..300 {
        let table = tables::KINDS[i % tables::KINDS.len()].draw(&mut random, 5).table;
        for &split in candidates(table.inputs, 4) {
            let (d, h) = match pair(&table, split) {
                Some(both) => both,
                None => continue,
            };
            let rest = split.shared | split.free(table.inputs);
            for (x, &bit) in table.bits.iter().enumerate() {
                let d_bit = d.bits[gather(x, split.own | split.shared)] as usize;
                assert_eq!(h.bits[gather(x, rest) | d_bit << size(rest)], bit);
                // D is 0 for own assignment 0.
                assert!(x & split.own as usize != 0 || d_bit == 0);
            }
        }
    }
}

#[test]
fn there_are_as_many_candidates_as_the_document_says() {
    assert_eq!(candidates(16, 6).len(), 592_404);
}

#[test]
fn no_possible_split_of_inputs_that_count_comes_before_the_best() {
    let mut random = Random::new(3);
    for i in 0..200 {
        let table = tables::KINDS[i % tables::KINDS.len()].draw(&mut random, 6).table;
        let counted = |split: &&Split| (split.own | split.shared) & !table.counting() == 0;
        let counted_ones = candidates(table.inputs, 4).iter().filter(counted);
        let possible_ones = counted_ones.filter(|&&split| possible(&table, split));
        assert_eq!(best(&table, 4), possible_ones.min_by_key(|split| order(split)).copied());
    }
}

#[test]
fn a_sheet_carries_its_table() {
    let mut random = Random::new(4);
    let mut made = 0;
    for i in 0..400 {
        let k = 2 + i % 5;
        let table = tables::KINDS[i % tables::KINDS.len()].draw(&mut random, 7).table;
        let n = table.inputs;
        let cells = match chain(&table, k) {
            Some(cells) => cells,
            None => continue,
        };
        assert!(cells.len() <= 1.max((n + 1).saturating_sub(k)));
        assert_eq!(read_sheet(n, &write_sheet(&cells)), Ok(cells.clone()));
        assert_eq!(rebuild(n, &cells), table);
        made += 1;
    }
    assert!(made > 100);
}

#[test]
fn handmade_sheets_are_sound_and_run_as_they_rebuild() {
    let mut random = Random::new(5);
    for i in 0..200 {
        let n = 1 + i % 6;
        let sheet = sheets::KINDS[i % sheets::KINDS.len()].draw(&mut random, n);
        let cells = read_sheet(n, &sheet).expect("a sound sheet");
        let table = rebuild(n, &cells);
        assert!((0..1 << n).all(|x| run(n, &cells, x) == table.bits[x]));
    }
}

#[test]
fn the_assignments_of_a_set_are_those_that_are_zero_elsewhere() {
    for mask in [0u16, 1, 6, 21, 32, 0x8001, 0x7F0F, 0xFFFF] {
        let walked = (0..1usize << 16).filter(|x| x & !usize::from(mask) == 0);
        let list = assignments(mask);
        assert!(walked.eq(list.iter().copied()));
        assert!(list.iter().enumerate().all(|(number, &x)| gather(x, mask) == number));
    }
}

#[test]
fn every_broken_rule_is_found_at_its_record() {
    let mut random = Random::new(11);
    for _ in 0..20 {
        for edition in [&FIRST, &SECOND] {
            for broken in every_rule::sheets(&mut random, edition) {
                assert_eq!(edition.read_sheet(broken.n, &broken.sheet), Err(broken.index));
            }
        }
    }
}

#[test]
fn bytes_and_numbers_give_the_table_back() {
    let mut random = Random::new(6);
    for n in 1..=6 {
        let table = tables::any(&mut random, n);
        assert_eq!(Table::from_bytes(n, &table.to_bytes()), table);
        assert_eq!(Table::from_number(n, table.to_number()), table);
    }
}

#[test]
fn two_cells_are_decided_as_by_trying_every_table_of_the_first() {
    let mut random = Random::new(7);
    let (mut carried, mut not_carried) = (0, 0);
    for i in 0..600 {
        let (n, k) = [(4, 3), (5, 3), (4, 2)][i % 3];
        let table = match i % 2 {
            0 if n < 2 * k => networks::two_cells(&mut random, n, k),
            _ => tables::KINDS[i % tables::KINDS.len()].draw(&mut random, n).table,
        };
        let n = table.inputs;
        let first = Reads::new(n, random.part_of(all(n), k));
        let second = Reads::new(n, random.part_of(all(n), k - 1));
        let wiring = Wiring { table: &table, first: &first, second: &second };
        assert_eq!(wiring.tried(), wiring.decided());
        carried += usize::from(wiring.tried());
        not_carried += usize::from(!wiring.tried());
    }
    assert!(carried > 30 && not_carried > 30, "{carried} and {not_carried}");
}

#[test]
fn the_decision_agrees_for_first_cells_of_four_inputs() {
    let mut random = Random::new(12);
    for _ in 0..6 {
        let table = networks::two_cells(&mut random, 5, 4);
        let first = Reads::new(5, random.part_of(all(5), 4));
        let second = Reads::new(5, random.part_of(all(5), 2));
        let wiring = Wiring { table: &table, first: &first, second: &second };
        assert_eq!(wiring.tried(), wiring.decided());
    }
}

#[test]
fn two_cells_carry_what_was_made_of_two() {
    let mut random = Random::new(13);
    for (n, k) in [(5, 3), (7, 4), (9, 5), (9, 6), (11, 6)] {
        let of_size_k = Networks::new(n, k);
        for _ in 0..10 {
            assert!(of_size_k.fewest(&networks::two_cells(&mut random, n, k)).is_some());
        }
    }
}

#[test]
fn of_several_refusals_the_lowest_is_given() {
    let number = |n, k, table: &[u8], own, shared, room| {
        let case = try_split::case(n, k, Split { own, shared }, table.to_vec(), room);
        answer(&case, PRESET).numbers[0]
    };
    assert_eq!(number(0, 9, &[], 0, 0, 0), 1);
    assert_eq!(number(u64::MAX, u64::MAX, &[], 0, 0, 0), 1);
    assert_eq!(number(2, 9, &[], 0, 0, 0), 2);
    assert_eq!(number(2, 2, &[], 0, 0, 0), 3);
    assert_eq!(number(2, 2, &[0x10], 0, 0, 0), 4);
    assert_eq!(number(2, 2, &[0x06], 0, 0, 0), 5);
    assert_eq!(number(3, 2, &[0xE8], 3, 0, 0), 6);
    assert_eq!(number(3, 2, &[0xE8], 3, 0, 1), 8);
    assert_eq!(number(3, 2, &[0x96], 3, 0, 1), 0);
}
