//! gate make: a sheet for a gate.

use super::Asked;
use crate::editions::{self, named};
use crate::gates::{self, Gate};
use crate::listed::{Listed, Times};
use crate::looks::Look;
use crate::sheets::{Edition, Sheet};
use crate::shown::{asked, count, Shown};
use crate::trouble::Trouble;
use crate::view;
use crate::words::{Known, Words};
use pelzurivan::{bound, Refusal, WORK};

pub static ASKED: Asked = Asked {
    name: "make",
    help: include_str!("../help/make.txt"),
    known: Known {
        alone: &view::OPTIONS,
        valued: &["--k", "--desk", "--edition", "--n", "--names", "-o"],
    },
    answer,
};

fn answer(words: &Words) -> Result<String, Trouble> {
    let [word] = words.exactly(["GATE"])?;
    let edition = Edition::of(words.number("--edition")?.unwrap_or(1));
    let k = words.number("--k")?.unwrap_or(edition.most_inputs as u64);
    let desk = words.number("--desk")?.unwrap_or(0);
    let gate = gates::gate(word, words)?;
    let bytes = make(&gate, edition, k, desk)?;
    let again = format!("./gate make {} --k {k}{}", gate.again, told(edition, desk));
    let shown = judged(gate, edition, k, &bytes, again)?;
    view::with_records(&shown, words)
}

fn told(edition: Edition, desk: u64) -> String {
    let edition =
        if edition.told == 1 { String::new() } else { format!(" --edition {}", edition.told) };
    let desk = if desk == 0 { String::new() } else { format!(" --desk {desk}") };
    edition + &desk
}

/// The records that the library makes: in the first edition with several first cells where one isn't
/// enough.
fn make(gate: &Gate, edition: Edition, k: u64, desk: u64) -> Result<Vec<u8>, Trouble> {
    let (n, table) = (gate.n(), &gate.table.bytes);
    let mut sheet = vec![0; edition.sheet()];
    let mut work = vec![0; WORK];
    let made = editions::made(edition.told, [n, k, desk], table, &mut sheet, &mut work);
    let look = Look { names: Some(&gate.names), table: Some(&gate.table), ..Look::default() };
    let count = made.map_err(|refusal| look.at(refusal))?;
    sheet.truncate(count * edition.record);
    Ok(sheet)
}

/// The made sheet checked again, with the lower bound on its cells.
fn judged(
    gate: Gate,
    edition: Edition,
    k: u64,
    bytes: &[u8],
    again: String,
) -> Result<Shown, Trouble> {
    let Gate { table, names, said, .. } = gate;
    let n = table.n as u64;
    let wrong =
        |refusal: Refusal| Trouble::Machine(format!("the sheet made was refused: {refusal}"));
    editions::checked(edition.told, n, &table.bytes, bytes).map_err(wrong)?;
    let least = bound(edition.told, n, k, &table.bytes, &mut [0; WORK])?;
    let sheet = Sheet::new(table.n, edition, bytes);
    let maker = if edition.told == 1 { "make_any" } else { "make_told" };
    let asked = vec![
        asked(maker, format!("0: {}", count(sheet.count(), "record"))),
        asked(
            &named(edition.told, "check"),
            "0: the sheet keeps the record rules and gives the table's bit everywhere",
        ),
        asked("bound", format!("0: no fewer than {} of up to {k} inputs", count(least, "cell"))),
    ];
    let said = Some(said);
    let listed = Listed::new(sheet, names, Times::default());
    Ok(Shown { listed, table, said, k, least, asked, again })
}
