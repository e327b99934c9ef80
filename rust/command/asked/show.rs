//! gate show: a sheet that anyone made.

use super::Asked;
use crate::editions::named;
use crate::gates;
use crate::handed::{self, Handed};
use crate::listed::{Listed, Times};
use crate::shown::{asked, count, Shown};
use crate::trouble::Trouble;
use crate::view;
use crate::words::{Known, Words};
use pelzurivan::{bound, WORK};

pub static ASKED: Asked = Asked {
    name: "show",
    help: include_str!("../help/show.txt"),
    known: Known {
        alone: &view::OPTIONS,
        valued: &["--k", "--gate", "--edition", "--n", "--names", "-o"],
    },
    answer,
};

fn answer(words: &Words) -> Result<String, Trouble> {
    let [path] = words.exactly(["SHEET"])?;
    let shown = shown(path, words, Times::default())?;
    view::with_records(&shown, words)
}

/// A sheet with all that is said about it: rebuilt, and checked if the gate is told.
pub fn shown(path: &str, words: &Words, times: Times) -> Result<Shown, Trouble> {
    let gate = words.value("--gate").map(|word| gates::gate(word, words)).transpose()?;
    let handed = handed::sheet(path, words, gate.as_ref())?;
    let mut calls = Vec::new();
    let table = handed.rebuilt()?;
    calls.push(asked(
        &named(handed.edition.told, "rebuild"),
        "0: the sheet keeps the record rules; its table was rebuilt",
    ));
    let again = format!("./gate show {}", handed.again(gate.as_ref()));
    let mut said = None;
    if let Some(gate) = &gate {
        handed.checked(&gate.table)?;
        calls.push(asked(
            &named(handed.edition.told, "check"),
            "0: the sheet gives the gate's bit at every assignment",
        ));
        said = Some(gate.said.clone());
    }
    let sheet = handed.listed();
    let k = words.number("--k")?.unwrap_or(sheet.widest().max(2) as u64);
    let Handed { names, edition, n, .. } = handed;
    let least = bound(edition.told, n as u64, k, &table.bytes, &mut [0; WORK])?;
    calls.push(asked(
        "bound",
        format!("0: no fewer than {} of up to {k} inputs", count(least, "cell")),
    ));
    let listed = Listed::new(sheet, names, times);
    Ok(Shown { listed, table, said, k, least, asked: calls, again })
}
