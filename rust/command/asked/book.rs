//! gate book: the wiring board of a three-input table, or of all.

use super::turn::three;
use super::Asked;
use crate::json::Json;
use crate::listing::columns;
use crate::sheets::Cell;
use crate::short;
use crate::trouble::Trouble;
use crate::words::{Known, Words};
use pelzurivan::look_up;
use std::collections::BTreeMap;

pub static ASKED: Asked = Asked {
    name: "book",
    help: include_str!("../help/book.txt"),
    known: Known { alone: &["--json"], valued: &[] },
    answer,
};

fn answer(words: &Words) -> Result<String, Trouble> {
    if words.plain.is_empty() {
        return Ok(whole(words.has("--json")));
    }
    let [word] = words.exactly(["GATE"])?;
    let table = three(word, words)?;
    let board = look_up(table);
    if words.has("--json") {
        let fields = vec![("table", hex(table).into()), ("board", hex(board).into())];
        return Ok(format!("{}\n", Json::object(fields)));
    }
    Ok(format!("{table:02X} is on board {board:02X}: {}\n", gives(board)))
}

fn hex(table: u8) -> String {
    format!("{table:02X}")
}

/// The boards in order, what each gives, and the tables on it.
fn whole(json: bool) -> String {
    let mut boards: BTreeMap<u8, Vec<String>> = BTreeMap::new();
    for table in 0..=255 {
        boards.entry(look_up(table)).or_default().push(hex(table));
    }
    if json {
        let board = |(board, tables): (&u8, &Vec<String>)| {
            let tables = Json::list(tables.iter().map(String::as_str));
            Json::object(vec![("board", hex(*board).into()), ("tables", tables)])
        };
        return format!("{}\n", Json::List(boards.iter().map(board).collect()));
    }
    let mut rows = vec![["board", "gives", "tables"].map(String::from).to_vec()];
    for (board, tables) in &boards {
        rows.push(vec![hex(*board), gives(*board), tables.join(" ")]);
    }
    columns(&rows)
}

/// A three-input table as a short formula.
fn gives(table: u8) -> String {
    let bits = (0..8).map(|x| table >> x & 1 == 1).collect();
    let cell = Cell { signal: 3, reads: vec![0, 1, 2], bits, depth: 1 };
    let name = |j: usize| char::from(b'a' + j as u8).to_string();
    short::of(&cell).map_or_else(String::new, |formula| formula.text(&name))
}
