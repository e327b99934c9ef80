//! A sheet that the library took, with all that is said about it.

use crate::json::Json;
use crate::listed::Listed;
use crate::tables::{hex_of, Table};
use std::ops::Deref;

/// A call that was made, and its answer in words.
pub struct Asked {
    pub call: String,
    pub answer: String,
}

pub struct Shown {
    pub listed: Listed,
    pub table: Table,
    /// The gate as it was handed over; none where only the sheet was.
    pub said: Option<String>,
    /// The number of inputs of a cell that the lower bound on cells is for.
    pub k: u64,
    pub least: usize,
    pub asked: Vec<Asked>,
    /// A command line that shows the same.
    pub again: String,
}

impl Deref for Shown {
    type Target = Listed;

    fn deref(&self) -> &Listed {
        &self.listed
    }
}

pub fn asked(call: &str, answer: impl Into<String>) -> Asked {
    Asked { call: call.to_string(), answer: answer.into() }
}

/// A number with a word, in the plural where it is not 1.
pub fn count(number: usize, word: &str) -> String {
    format!("{number} {word}{}", if number == 1 { "" } else { "s" })
}

/// A number with a comma before each three digits.
pub fn grouped(number: usize) -> String {
    let digits = number.to_string();
    let starts = (0..digits.len()).filter(|at| at > &0 && (digits.len() - at) % 3 == 0);
    let mut grouped = digits.clone();
    for at in starts.collect::<Vec<_>>().into_iter().rev() {
        grouped.insert(at, ',');
    }
    grouped
}

impl Shown {
    /// The line above the cells.
    pub fn summary(&self) -> String {
        let cells = count(self.sheet.count(), "cell");
        let depth = match self.sheet.depth() {
            1 => String::new(),
            depth => format!(", {depth} deep"),
        };
        let fewest = match (self.sheet.count(), self.least) {
            (made, least) if made == least => "the fewest possible".to_string(),
            (_, least) => {
                format!("at least {least} {} needed", if least == 1 { "is" } else { "are" })
            }
        };
        let verb = if self.said.is_some() { "Checked" } else { "Rebuilt" };
        let all = grouped(1 << self.sheet.n);
        format!(
            "{cells} of up to {} inputs{depth}: {fewest}. {verb} at all {all} assignments.",
            self.k
        )
    }

    pub fn json(&self) -> Json {
        let cells = self.sheet.cells.iter().enumerate();
        let asked = self.asked.iter().map(|asked| {
            let answer = asked.answer.as_str().into();
            Json::object(vec![("call", asked.call.as_str().into()), ("answer", answer)])
        });
        Json::object(vec![
            ("number", 0usize.into()),
            ("n", self.sheet.n.into()),
            ("k", self.k.into()),
            ("edition", self.sheet.edition.told.into()),
            ("desk", usize::from(self.sheet.desk).into()),
            ("inputs", Json::list(self.names.inputs.iter().map(String::as_str))),
            ("table", self.table.hex().into()),
            ("checked", self.said.is_some().into()),
            ("count", self.sheet.count().into()),
            ("least", self.least.into()),
            ("fewest", (self.least == self.sheet.count()).into()),
            ("cells", Json::List(cells.map(|(at, cell)| self.cell_json(at, cell)).collect())),
            ("sheet", hex_of(&self.sheet.bytes).into()),
            ("asked", Json::List(asked.collect())),
        ])
    }
}

#[cfg(test)]
mod tests {
    use super::*;

    #[test]
    fn numbers_in_words() {
        assert_eq!(
            [7, 999, 1000, 65_536, 1_000_000].map(grouped).join(" "),
            "7 999 1,000 65,536 1,000,000"
        );
        assert_eq!((count(1, "cell"), count(2, "cell")), ("1 cell".into(), "2 cells".into()));
    }
}
