//! gate find: the best split of a gate.

use super::Asked;
use crate::editions;
use crate::gates;
use crate::json::Json;
use crate::looks::Look;
use crate::trouble::Trouble;
use crate::words::{Known, Words};
use pelzurivan::{find_several, Refusal, Several, WORK};

pub static ASKED: Asked = Asked {
    name: "find",
    help: include_str!("../help/find.txt"),
    known: Known {
        alone: &["--several", "--json"],
        valued: &["--k", "--edition", "--n", "--names"],
    },
    answer,
};

fn answer(words: &Words) -> Result<String, Trouble> {
    let [word] = words.exactly(["GATE"])?;
    let gate = gates::gate(word, words)?;
    let edition = words.number("--edition")?.unwrap_or(1);
    let k = words.number("--k")?.unwrap_or(if edition == 2 { 8 } else { 6 });
    if words.has("--several") && edition != 1 {
        return Err(Trouble::line("--several is for the first edition"));
    }
    let mut work = vec![0; WORK];
    let (n, table) = (gate.n(), &gate.table.bytes);
    let found = if words.has("--several") {
        find_several(n, k, table, &mut work)
    } else {
        editions::found(edition, [n, k], table, &mut work).map(|split| Several { r: 1, split })
    };
    let look = Look { names: Some(&gate.names), table: Some(&gate.table), ..Look::default() };
    let Several { r, split } = found.map_err(|refusal| match refusal {
        Refusal::Unsplit { .. } => {
            Trouble::look_at(refusal, format!("no own and shared set of up to {k} inputs will do"))
        }
        _ => look.at(refusal),
    })?;
    if words.has("--json") {
        let fields = vec![("number", 0usize.into()), ("r", r.into()), ("own", split.own.into())];
        let shared = ("shared", split.shared.into());
        return Ok(format!("{}\n", Json::object(fields.into_iter().chain([shared]).collect())));
    }
    let (own, shared) = (gate.names.set(split.own), gate.names.set(split.shared));
    let cells = if r == 1 { "one first cell".into() } else { format!("{r} first cells") };
    Ok(format!("own {own}; shared {shared}; {cells}\n"))
}
