//! A sheet's cells with their names, what each gives, and when it settles if that was asked.

use crate::json::Json;
use crate::names::Names;
use crate::sheets::{Cell, Sheet};
use crate::short::{self, Formula};

/// When the signals come, if that was asked: in words for the output, each input, and each cell.
#[derive(Default)]
pub struct Times {
    pub output: String,
    pub inputs: Vec<String>,
    pub cells: Vec<String>,
}

pub struct Listed {
    pub sheet: Sheet,
    pub names: Names,
    pub times: Times,
    /// What each cell computes, if a short formula reads back as its table.
    pub gives: Vec<Option<Formula>>,
}

impl Listed {
    pub fn new(sheet: Sheet, names: Names, times: Times) -> Listed {
        let gives = sheet.cells.iter().map(short::of).collect();
        Listed { sheet, names, times, gives }
    }

    /// What a cell computes, in the signals' names; its table's number where no formula is short.
    pub fn gives(&self, at: usize) -> String {
        let cell = &self.sheet.cells[at];
        match &self.gives[at] {
            Some(formula) => formula.text(&|j| self.names.of_signal(cell.reads[j])),
            None => format!("table {}", cell.hex()),
        }
    }

    /// A cell's signal; the last cell is the output.
    pub fn signal(&self, at: usize) -> String {
        if at + 1 == self.sheet.count() {
            self.names.output.clone()
        } else {
            self.sheet.cells[at].signal.to_string()
        }
    }

    pub fn cell_json(&self, at: usize, cell: &Cell) -> Json {
        let names = cell.reads.iter().map(|&signal| self.names.of_signal(signal));
        let mut fields = vec![
            ("signal", cell.signal.into()),
            ("reads", Json::list(cell.reads.iter().copied())),
            ("names", Json::list(names)),
            ("table", cell.hex().into()),
            ("gives", self.gives(at).into()),
            ("depth", cell.depth.into()),
        ];
        fields.extend(self.times.cells.get(at).map(|time| ("settles", time.as_str().into())));
        Json::object(fields)
    }
}
