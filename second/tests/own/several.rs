//! Several first cells.

use second::calls::{find_several, try_several};
use second::case::{answer, PRESET};
use second::fresh::tables::{self, any, compose_several, Kind};
use second::random::Random;
use second::refusals::WORK_BYTES;
use second::sets::{assignments, gather, size};
use second::several::{best_several, choices, order_of_several, Several};
use second::split::{first_break, pair, Split};
use second::table::Table;

/// Tables of every kind and such as are built for r first cells.
fn drawn(random: &mut Random, i: usize) -> Table {
    let n = 3 + i % 4;
    match i % 3 {
        0 => {
            let r = random.between(1, 3.min(n - 1));
            let own = random.between(r + 1, n);
            let shared = random.below(n - own + 1);
            compose_several(random, n, [own, shared], r).table
        }
        1 => Kind::Symmetric.draw(random, n).table,
        _ => tables::KINDS[i % tables::KINDS.len()].draw(random, n).table,
    }
}

/// The definition, with no word of columns: some tables of the first cells, told
/// together as a code for each entry, and some H give the table everywhere.
fn possible_by_definition(table: &Table, several: Several) -> bool {
    let Several { r, split } = several;
    let both = split.own | split.shared;
    let rest = split.shared | split.free(table.inputs);
    let entries = 1 << size(both);
    (0..1u64 << (r * entries)).any(|codes| {
        let mut h = vec![None; 1 << (size(rest) + r)];
        table.bits.iter().enumerate().all(|(x, &bit)| {
            let code = (codes >> (r * gather(x, both))) as usize & ((1 << r) - 1);
            *h[gather(x, rest) | code << size(rest)].get_or_insert(bit) == bit
        })
    })
}

#[test]
fn as_many_columns_as_codes_agree_with_the_definition() {
    let mut random = Random::new(81);
    let (mut can, mut cannot) = (0, 0);
    for i in 0..40 {
        let table = match i % 2 {
            0 => any(&mut random, 5),
            _ => compose_several(&mut random, 5, [3, 0], 2).table,
        };
        let own = random.part_of(31, 3);
        for several in [(1, own), (2, own), (2, 7)]
            .map(|(r, own)| Several { r, split: Split { own, shared: 0 } })
        {
            let by_definition = possible_by_definition(&table, several);
            assert_eq!(several.possible(&table), by_definition);
            can += usize::from(by_definition);
            cannot += usize::from(!by_definition);
        }
    }
    assert!(can > 10 && cannot > 10, "{can} and {cannot}");
}

#[test]
fn the_first_cells_and_h_give_the_table_back_as_the_document_says() {
    let mut random = Random::new(82);
    let mut met = [0; 4];
    for i in 0..200 {
        let table = drawn(&mut random, i);
        let n = table.inputs;
        for several in choices(n, n.min(5)) {
            let Several { r, split } = *several;
            let (first, h) = match several.tables(&table) {
                Some(tables) => tables,
                None => continue,
            };
            met[r] += 1;
            assert_eq!(first.len(), r);
            assert_eq!(h.inputs, several.inputs_of_h(n));
            let (both, rest) = (split.own | split.shared, split.shared | split.free(n));
            let code = |x: usize| -> usize {
                let entry = gather(x, both);
                (0..r).map(|t| usize::from(first[t].bits[entry]) << t).sum()
            };
            for (x, &bit) in table.bits.iter().enumerate() {
                assert_eq!(h.bits[gather(x, rest) | code(x) << size(rest)], bit);
            }
            // Numbered as they first appear: a new number is one above all before it.
            for b in assignments(split.shared) {
                let mut known = 0;
                for a in assignments(split.own) {
                    assert!(code(a | b) <= known);
                    known = known.max(code(a | b) + 1);
                }
                // What is not used gives column 0.
                for c in assignments(split.free(n)) {
                    let at = gather(b | c, rest);
                    let mut unused = (known..1 << r).map(|code| h.bits[at | code << size(rest)]);
                    assert!(unused.all(|bit| bit == h.bits[at]));
                }
            }
        }
    }
    assert!(met[1] > 200 && met[2] > 200 && met[3] > 100, "{met:?}");
}

#[test]
fn one_first_cell_is_that_of_document_01() {
    let mut random = Random::new(83);
    let mut met = 0;
    for i in 0..200 {
        let table = drawn(&mut random, i);
        for several in choices(table.inputs, 4).iter().filter(|several| several.r == 1) {
            let ours = several.tables(&table).map(|(mut first, h)| (first.remove(0), h));
            met += usize::from(ours.is_some());
            assert_eq!(ours, pair(&table, several.split));
        }
    }
    assert!(met > 500, "{met}");
}

#[test]
fn a_split_is_possible_exactly_if_nothing_breaks_it() {
    let mut random = Random::new(84);
    for i in 0..150 {
        let table = drawn(&mut random, i);
        for several in choices(table.inputs, 5) {
            let at = first_break(&table, several.split, 1 << several.r);
            assert_eq!(several.possible(&table), at.is_none());
        }
    }
}

#[test]
fn no_possible_choice_comes_before_the_best() {
    let mut random = Random::new(85);
    let mut met = [0; 4];
    for i in 0..300 {
        let (table, k) = (drawn(&mut random, i), 2 + i % 4);
        let counted = |several: &&Several| {
            (several.split.own | several.split.shared) & !table.counting() == 0
        };
        let possible = choices(table.inputs, k).iter().filter(counted);
        let possible = possible.filter(|several| several.possible(&table));
        let least = possible.min_by_key(|several| order_of_several(several)).copied();
        assert_eq!(best_several(&table, k), least);
        met[least.map_or(0, |several| several.r)] += 1;
    }
    assert!(met[0] > 10 && met[1] > 50 && met[2] > 5, "{met:?}");
}

#[test]
fn the_order_is_gain_then_first_cells_then_that_of_document_01() {
    let several = |r, own, shared| Several { r, split: Split { own, shared } };
    let listed = [
        several(1, 0b111, 0),
        several(1, 0b011, 0),
        several(1, 0b101, 0),
        several(1, 0b011, 0b100),
        several(2, 0b111, 0),
    ];
    let all = choices(4, 3);
    let places = listed.map(|one| all.iter().position(|other| *other == one).expect("listed"));
    assert!(places.windows(2).all(|two| two[0] < two[1]), "{places:?}");
}

#[test]
fn of_several_refusals_the_lowest_is_given() {
    let number = |numbers, own, shared, table: &[u8], room| {
        let case = try_several::case(numbers, Split { own, shared }, table.to_vec(), room);
        answer(&case, PRESET).numbers[0]
    };
    assert_eq!(number([0, 9, 0], 0, 0, &[], 0), 1);
    assert_eq!(number([2, 7, 0], 0, 0, &[], 0), 2);
    assert_eq!(number([2, 2, 0], 0, 0, &[], 0), 3);
    assert_eq!(number([2, 2, 0], 0, 0, &[0x10], 0), 4);
    assert_eq!(number([3, 3, 0], 7, 0, &[0xE8], 0), 5);
    assert_eq!(number([3, 3, 4], 7, 0, &[0xE8], 0), 5);
    assert_eq!(number([3, 3, 1 << 32 | 1], 7, 0, &[0xE8], 1), 5);
    assert_eq!(number([3, 3, 3], 7, 0, &[0xE8], 0), 5);
    assert_eq!(number([3, 3, 2], 7, 0, &[0xE8], 0), 6);
    assert_eq!(number([3, 3, 2], 7, 0, &[0xE8], 1), 0);
    let find = |n, k, table: &[u8], work| {
        answer(&find_several::case(n, k, table.to_vec(), work), PRESET).numbers[0]
    };
    assert_eq!(find(17, 1, &[], 0), 1);
    assert_eq!(find(3, 1, &[], 0), 2);
    assert_eq!(find(3, 3, &[], 0), 3);
    assert_eq!(find(2, 2, &[0x16], 0), 4);
    assert_eq!(find(3, 3, &[0xE8], WORK_BYTES - 1), 6);
    assert_eq!(find(3, 3, &[0xE8], WORK_BYTES), 7);
    assert_eq!(find(3, 2, &[0xE8], WORK_BYTES), 8);
    assert_eq!(find(3, 2, &[0x80], WORK_BYTES), 0);
}
