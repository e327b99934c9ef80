//! Sheets printed as formulas: the forms, what is printed, and that it reads back.

use second::cell::Cell;
use second::chain::chain;
use second::fresh::trees::tree;
use second::network::rebuild;
use second::printing::{print, OF_ONE, OF_TWO};
use second::random::Random;
use second::text::{read, value};

fn cell(reads: &[usize], table: u64) -> Cell {
    Cell::numbered(reads.to_vec(), table)
}

fn reads_back(n: usize, cells: &[Cell], text: &str) {
    let table = rebuild(n, cells);
    let steps = read(n, text.as_bytes()).expect("what is printed is a formula");
    for x in 0..1 << n {
        assert_eq!(value(&steps, x), table.bits[x], "{text} at {x}");
    }
}

#[test]
fn each_form_reads_back_as_its_table() {
    for table in 0..16 {
        let cells = [cell(&[0, 1], table)];
        let form = OF_TWO.iter().find(|(known, _)| *known == table);
        let text = print(2, &cells);
        assert_eq!(text, form.map(|(_, form)| form.replace('L', "a").replace('R', "b")));
        if let Some(text) = text {
            reads_back(2, &cells, &text);
        }
    }
    for (table, form) in OF_ONE {
        let cells = [cell(&[0], table)];
        assert_eq!(print(1, &cells), Some(form.replace('L', "a")));
        reads_back(1, &cells, &form.replace('L', "a"));
    }
}

#[test]
fn the_example() {
    let and = [cell(&[0, 1], 8), cell(&[2, 3], 8)];
    assert_eq!(print(3, &and).as_deref(), Some("(c&(a&b))"));
}

#[test]
fn a_cell_is_read_once() {
    let first = cell(&[0, 1], 8);
    let twice = [first.clone(), cell(&[0, 2], 8), cell(&[2, 3], 14)];
    let never = [first.clone(), cell(&[0, 1], 8)];
    let inputs_often = [first, cell(&[0, 2], 8), cell(&[0, 3], 6)];
    assert_eq!(print(2, &twice), None);
    assert_eq!(print(2, &never), None);
    assert_eq!(print(2, &inputs_often).as_deref(), Some("(a^(a&(a&b)))"));
}

#[test]
fn what_k_2_makes_is_printed() {
    let mut random = Random::new(8);
    for n in 1..=7 {
        for _ in 0..40 {
            let table = tree(&mut random, n);
            let cells = chain(&table, 2).expect("K = 2 finds every tree");
            let text = print(n, &cells).expect("what K = 2 makes is printed");
            reads_back(n, &cells, &text);
            assert_eq!(rebuild(n, &cells).bits, table.bits);
        }
    }
}

#[test]
fn a_sheet_nests_to_30_levels_and_is_short() {
    // 15 cells, each a side with `!` of the next: 29 levels from the outermost parenthesis down.
    let cells: Vec<Cell> =
        (0..15).map(|i| if i == 0 { cell(&[0, 1], 1) } else { cell(&[0, i + 1], 1) }).collect();
    let text = print(2, &cells).expect("a sheet that is printed");
    assert_eq!(text.len(), 15 * 5 + 16);
    reads_back(2, &cells, &text);
}
