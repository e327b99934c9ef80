//! gate card: a card of four desks in a file.

use super::{run, Asked};
use crate::files;
use crate::handed;
use crate::json::Json;
use crate::listing::columns;
use crate::names::Names;
use crate::tables::{hex_of, Table};
use crate::trouble::Trouble;
use crate::words::{Known, Words};
use pelzurivan::{load, rebuild, run_desk, Refusal, CARD, RECORD, RECORDS};

pub static ASKED: Asked = Asked {
    name: "card",
    help: include_str!("../help/card.txt"),
    known: Known { alone: &["--json"], valued: &["--desk", "--at", "--n", "--names"] },
    answer,
};

/// The bytes of a desk, and where its status record is in it.
const DESK: usize = (RECORDS + 1) * RECORD;
const STATUS: usize = RECORDS * RECORD;

fn answer(words: &Words) -> Result<String, Trouble> {
    let plain: Vec<&str> = words.plain.iter().map(String::as_str).collect();
    match plain[..] {
        ["new", card] => new(card),
        ["load", card, sheet] => load_desk(card, sheet, words),
        ["run", card] => run_a_desk(card, words),
        ["show", card] => show(card, words),
        _ => Err(Trouble::line("new CARD, load CARD SHEET, run CARD or show CARD: see --help")),
    }
}

/// A card with every desk closed.
fn new(path: &str) -> Result<String, Trouble> {
    if std::fs::metadata(path).is_ok() {
        return Err(Trouble::file(format!("{path}: it is there already")));
    }
    files::write(path, &[0; CARD])?;
    Ok(format!("{path}: a card with four closed desks\n"))
}

fn desk(words: &Words) -> Result<u64, Trouble> {
    words.number("--desk")?.ok_or_else(|| Trouble::line("which desk? --desk 1 to 4"))
}

/// Loads a sheet that was made for the desk.
fn load_desk(path: &str, sheet: &str, words: &Words) -> Result<String, Trouble> {
    let desk = desk(words)?;
    let handed = handed::sheet(sheet, words, None)?;
    let mut card = files::bytes(path)?;
    load(&mut card, desk, handed.n as u64, &handed.bytes).map_err(|refusal| match refusal {
        Refusal::Desk => {
            let made = handed.bytes.get(7).copied().unwrap_or(0);
            Trouble::look_at(refusal, format!("desk {desk}; the sheet was made for desk {made}"))
        }
        Refusal::CardLength => length(refusal, path, &card),
        _ => handed.look(None).at(refusal),
    })?;
    files::write(path, &card)?;
    let records = handed.bytes.len() / RECORD;
    Ok(format!("{path}: desk {desk} is open, n = {}, cells = {records}\n", handed.n))
}

fn length(refusal: Refusal, path: &str, card: &[u8]) -> Trouble {
    let more = if card.len() > CARD { "over 1,024".into() } else { card.len().to_string() };
    Trouble::look_at(refusal, format!("{path} has {more} bytes"))
}

fn run_a_desk(path: &str, words: &Words) -> Result<String, Trouble> {
    let (desk, card) = (desk(words)?, files::bytes(path)?);
    let given = words.value("--names").map(Names::given).transpose()?;
    let n = desk_of(&card, desk).map_or(0, |bytes| usize::from(bytes[STATUS + 1]));
    let names = given.unwrap_or_else(|| Names::letters(n));
    let x = run::assignment(words, &names)?;
    let bit = run_desk(&card, desk, x).map_err(|refusal| match refusal {
        Refusal::CardLength => length(refusal, path, &card),
        Refusal::Assignment => run::beyond(refusal, x, &Names::letters(n)),
        Refusal::Closed | Refusal::Desk => Trouble::look_at(refusal, format!("desk {desk}")),
        Refusal::BadRecord { index } | Refusal::Unread { index } => {
            Trouble::look_at(refusal, format!("record {index} of desk {desk}"))
        }
        _ => refusal.into(),
    })?;
    Ok(run::said(words, &names, x, bit))
}

/// The bytes of a desk, 1 to 4, if the card has them.
fn desk_of(card: &[u8], desk: u64) -> Option<&[u8]> {
    let start = usize::try_from(desk.checked_sub(1)?).ok()?.checked_mul(DESK)?;
    card.get(start..start.checked_add(DESK)?)
}

/// What each desk's status says, and whether it answers.
fn show(path: &str, words: &Words) -> Result<String, Trouble> {
    let card = files::bytes(path)?;
    let mut rows = vec![["desk", "state", "inputs", "cells", "table"].map(String::from).to_vec()];
    let mut list = Vec::new();
    for desk in 1..=4u64 {
        let state = match run_desk(&card, desk, 0) {
            Ok(_) => "open".to_string(),
            Err(Refusal::Closed) => "closed".to_string(),
            Err(refusal @ Refusal::CardLength) => return Err(length(refusal, path, &card)),
            Err(refusal) => format!("refuses as {refusal}"),
        };
        let table = desk_of(&card, desk).filter(|_| state == "open").map(opened);
        let (n, cells, table) = table.unwrap_or_default();
        let word = |number: usize| if number == 0 { String::new() } else { number.to_string() };
        let short =
            if table.len() > 64 { format!("{} digits", table.len()) } else { table.clone() };
        rows.push(vec![desk.to_string(), state.clone(), word(n), word(cells), short]);
        list.push(Json::object(vec![
            ("desk", desk.into()),
            ("state", state.into()),
            ("n", n.into()),
            ("count", cells.into()),
            ("table", table.into()),
        ]));
    }
    if words.has("--json") {
        let card = hex_of(&card).into();
        let fields = vec![("number", 0usize.into()), ("desks", Json::List(list)), ("card", card)];
        return Ok(format!("{}\n", Json::object(fields)));
    }
    Ok(columns(&rows))
}

/// n, the number of cells and the table of an open desk.
fn opened(desk: &[u8]) -> (usize, usize, String) {
    let (n, cells) = (usize::from(desk[STATUS + 1]), usize::from(desk[STATUS + 2]));
    let mut table = Table::zeros(n);
    let records = &desk[..(cells * RECORD).min(STATUS)];
    match rebuild(n as u64, records, &mut table.bytes) {
        Ok(()) => (n, cells, table.hex()),
        Err(refusal) => (n, cells, format!("refused as {refusal}")),
    }
}
