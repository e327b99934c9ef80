//! gate turn: one three-input table into another.

use super::Asked;
use crate::gates;
use crate::json::Json;
use crate::trouble::Trouble;
use crate::words::{Known, Words};
use pelzurivan::{look_up, turn, Refusal, Turn};

pub static ASKED: Asked = Asked {
    name: "turn",
    help: include_str!("../help/turn.txt"),
    known: Known { alone: &["--json"], valued: &[] },
    answer,
};

fn answer(words: &Words) -> Result<String, Trouble> {
    let [one, other] = words.exactly(["GATE", "GATE"])?;
    let (first, second) = (three(one, words)?, three(other, words)?);
    let way = turn(first, second).map_err(|refusal: Refusal| {
        let (one, other) = (look_up(first), look_up(second));
        let boards =
            format!("{first:02X} is on board {one:02X}, {second:02X} on board {other:02X}");
        Trouble::look_at(refusal, boards)
    })?;
    if words.has("--json") {
        let order = way.order.map(u64::from);
        let fields = vec![
            ("number", 0usize.into()),
            ("flip", way.flip.into()),
            ("mask", u64::from(way.mask).into()),
            ("order", Json::list(order)),
        ];
        return Ok(format!("{}\n", Json::object(fields)));
    }
    Ok(format!("{first:02X} becomes {second:02X}: {}\n", said(&way)))
}

/// The table of three inputs that a word is, as every gate is handed over.
pub fn three(word: &str, words: &Words) -> Result<u8, Trouble> {
    let gate = gates::three(word, words)?;
    match gate.table.bytes[..] {
        [table] if gate.table.n == 3 => Ok(table),
        _ => Err(Trouble::line(format!("{word} has {} inputs, and not three", gate.table.n))),
    }
}

/// What the cell's inputs a, b and c are joined to.
fn said(way: &Turn) -> String {
    let joined = |j: usize| {
        let sign = if way.mask >> j & 1 == 1 { "!" } else { "" };
        let (input, line) = (char::from(b'a' + j as u8), char::from(b'a' + way.order[j]));
        format!("{input} reads {sign}{line}")
    };
    let flip = if way.flip { "; the output is flipped" } else { "" };
    format!("{}{flip}", (0..3).map(joined).collect::<Vec<_>>().join(", "))
}
