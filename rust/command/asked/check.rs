//! gate check: whether a supplier's sheet gives a gate's bit everywhere.

use super::Asked;
use crate::gates;
use crate::handed;
use crate::json::Json;
use crate::shown::{count, grouped};
use crate::trouble::Trouble;
use crate::words::{Known, Words};

pub static ASKED: Asked = Asked {
    name: "check",
    help: include_str!("../help/check.txt"),
    known: Known { alone: &["--json"], valued: &["--edition", "--n", "--names"] },
    answer,
};

fn answer(words: &Words) -> Result<String, Trouble> {
    let [path, word] = words.exactly(["SHEET", "GATE"])?;
    let gate = gates::gate(word, words)?;
    let handed = handed::sheet(path, words, Some(&gate))?;
    handed.checked(&gate.table)?;
    let cells = handed.listed().count();
    if words.has("--json") {
        let fields = vec![("number", 0usize.into()), ("count", cells.into())];
        return Ok(format!("{}\n", Json::object(fields)));
    }
    let (cells, all) = (count(cells, "cell"), grouped(1 << gate.table.n));
    Ok(format!("Accepted: {cells}, the gate's bit at all {all} assignments.\n"))
}
