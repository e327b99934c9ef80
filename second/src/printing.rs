//! Sheets printed as formulas.

use crate::cell::Cell;

/// The tables of two signals that are printed, each with its text.
pub const OF_TWO: [(u64, &str); 10] = [
    (0x8, "(L&R)"),
    (0x4, "(!L&R)"),
    (0x2, "(L&!R)"),
    (0x1, "(!L&!R)"),
    (0xE, "(L|R)"),
    (0xD, "(!L|R)"),
    (0xB, "(L|!R)"),
    (0x7, "(!L|!R)"),
    (0x6, "(L^R)"),
    (0x9, "(L^!R)"),
];

/// The tables of one signal.
pub const OF_ONE: [(u64, &str); 4] = [(0b10, "L"), (0b01, "!L"), (0b00, "0"), (0b11, "1")];

/// One or two signals, and if two, the table depends on both.
fn can_be_printed(cell: &Cell) -> bool {
    match cell.reads.len() {
        1 => true,
        2 => cell.table.depends_on(0) && cell.table.depends_on(1),
        _ => false,
    }
}

/// How many places of all cells name this signal.
fn times_read(cells: &[Cell], signal: usize) -> usize {
    cells.iter().flat_map(|cell| &cell.reads).filter(|&&read| read == signal).count()
}

/// The text of a sound sheet, or nothing if it isn't one that is printed. From the
/// first cell on, each cell's text is its form with the texts of its signals put
/// in for L and R.
pub fn print(n: usize, cells: &[Cell]) -> Option<String> {
    let once = (0..cells.len() - 1).all(|i| times_read(cells, n + i) == 1);
    if !once || !cells.iter().all(can_be_printed) {
        return None;
    }
    let mut texts: Vec<String> =
        (b'a'..=b'p').take(n).map(|byte| char::from(byte).into()).collect();
    for cell in cells {
        let forms: &[(u64, &str)] = if cell.reads.len() == 1 { &OF_ONE } else { &OF_TWO };
        let (_, form) = forms.iter().find(|(table, _)| *table == cell.table.to_number())?;
        let filled = form.chars().map(|part| match part {
            'L' => texts[cell.reads[0]].clone(),
            'R' => texts[cell.reads[1]].clone(),
            other => other.into(),
        });
        texts.push(filled.collect());
    }
    texts.pop()
}
