//! Rows as in PLA files and in BLIF: `1-0 1`, the first column is the first input.

use crate::tables::Table;
use std::collections::HashSet;

/// A row: for each input 0, 1 or either; and whether it ends in 1.
#[derive(Clone, Debug, PartialEq, Eq, Hash)]
pub struct Row {
    pub inputs: Vec<Option<bool>>,
    pub one: bool,
}

/// The row that two words are; in words why they are none.
pub fn row(inputs: &str, output: &str) -> Result<Row, String> {
    let places: Option<Vec<Option<bool>>> = inputs.chars().map(place).collect();
    let places = places.ok_or_else(|| format!("a row holds 0, 1 and -, not {inputs:?}"))?;
    match output {
        "0" | "1" => Ok(Row { inputs: places, one: output == "1" }),
        _ => Err(format!("a row ends in 0 or 1, not in {output:?}")),
    }
}

fn place(c: char) -> Option<Option<bool>> {
    match c {
        '0' => Some(Some(false)),
        '1' => Some(Some(true)),
        '-' | '2' => Some(None),
        _ => None,
    }
}

impl Row {
    /// Calls for each assignment that the row names.
    pub fn each(&self, mut then: impl FnMut(usize)) {
        let free: Vec<usize> =
            (0..self.inputs.len()).filter(|&j| self.inputs[j].is_none()).collect();
        let fixed = (0..self.inputs.len()).filter(|&j| self.inputs[j] == Some(true));
        let fixed: usize = fixed.map(|j| 1 << j).sum();
        for chosen in 0..1usize << free.len() {
            let spread = free.iter().enumerate().map(|(at, j)| (chosen >> at & 1) << j);
            then(fixed + spread.sum::<usize>());
        }
    }
}

/// The table that is 1 where some row says so, or, where the rows say where it is 0, elsewhere.
pub fn table_of(n: usize, rows: &[Row], value: bool) -> Table {
    let mut named = vec![false; 1 << n];
    for row in rows.iter().collect::<HashSet<_>>() {
        row.each(|x| named[x] = true);
    }
    let mut table = Table::zeros(n);
    for x in (0..1 << n).filter(|&x| named[x] == value) {
        table.set(x);
    }
    table
}

#[cfg(test)]
mod tests {
    use super::*;

    #[test]
    fn rows_become_a_table() {
        let rows = [row("1-0", "1"), row("-11", "1")].map(Result::unwrap);
        assert_eq!(table_of(3, &rows, true).bytes, [0b1100_1010]);
        assert_eq!(table_of(3, &rows, false).bytes, [0b0011_0101]);
        assert!(row("1x", "1").is_err() && row("11", "-").is_err());
    }
}
