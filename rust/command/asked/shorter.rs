//! gate shorter: the shorter of two sheets for one gate.

use super::Asked;
use crate::gates;
use crate::handed;
use crate::json::Json;
use crate::shown::count;
use crate::trouble::Trouble;
use crate::words::{Known, Words};
use pelzurivan::{shorter, Kept, RECORD};

pub static ASKED: Asked = Asked {
    name: "shorter",
    help: include_str!("../help/shorter.txt"),
    known: Known { alone: &["--json"], valued: &["--n", "--names"] },
    answer,
};

fn answer(words: &Words) -> Result<String, Trouble> {
    let [one, other, word] = words.exactly(["SHEET", "SHEET", "GATE"])?;
    let gate = gates::gate(word, words)?;
    let first = handed::sheet(one, words, Some(&gate))?;
    let second = handed::sheet(other, words, Some(&gate))?;
    let kept = shorter(gate.n(), &gate.table.bytes, &first.bytes, &second.bytes)
        .map_err(|refusal| first.look(Some(&gate.table)).at(refusal))?;
    let (which, path, records) = match kept {
        Kept::First(sheet) => (1usize, one, sheet.len() / RECORD),
        Kept::Second(sheet) => (2, other, sheet.len() / RECORD),
    };
    if words.has("--json") {
        let fields =
            vec![("number", 0usize.into()), ("which", which.into()), ("count", records.into())];
        return Ok(format!("{}\n", Json::object(fields)));
    }
    Ok(format!("{path}: {}\n", count(records, "cell")))
}
