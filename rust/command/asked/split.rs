//! gate try: a named split.

use super::Asked;
use crate::editions;
use crate::gates::{self, Gate};
use crate::json::Json;
use crate::listing::columns;
use crate::looks::Look;
use crate::names::Names;
use crate::sheets::Cell;
use crate::short;
use crate::tables::Table;
use crate::trouble::Trouble;
use crate::words::{Known, Words};
use pelzurivan::{try_several, Several, Split};

pub static ASKED: Asked = Asked {
    name: "try",
    help: include_str!("../help/try.txt"),
    known: Known {
        alone: &["--json"],
        valued: &["--own", "--shared", "--r", "--k", "--edition", "--n", "--names"],
    },
    answer,
};

/// The first cells that a split has, and H, with what they read.
struct Tried {
    first: Vec<Cell>,
    h: Table,
    h_reads: Vec<String>,
}

fn answer(words: &Words) -> Result<String, Trouble> {
    let [word] = words.exactly(["GATE"])?;
    let gate = gates::gate(word, words)?;
    let own = set(words, "--own", &gate.names)?;
    let own = own.ok_or_else(|| Trouble::line("which inputs are the split's own? --own"))?;
    let shared = set(words, "--shared", &gate.names)?.unwrap_or(0);
    let tried = tried(&gate, Split { own, shared }, words)?;
    let names = &gate.names;
    if words.has("--json") {
        let first = tried.first.iter().map(|cell| cell.hex());
        let fields = vec![
            ("number", 0usize.into()),
            ("own", own.into()),
            ("shared", shared.into()),
            ("first", Json::list(first)),
            ("h", tried.h.hex().into()),
        ];
        return Ok(format!("{}\n", Json::object(fields)));
    }
    let mut rows = vec![["cell", "reads", "table", "gives"].map(String::from).to_vec()];
    for (at, cell) in tried.first.iter().enumerate() {
        let reads: Vec<String> = cell.reads.iter().map(|&j| names.of_signal(j)).collect();
        let gives = short::of(cell).map(|f| f.text(&|j| names.of_signal(cell.reads[j])));
        let name =
            format!("D{}", if tried.first.len() == 1 { String::new() } else { at.to_string() });
        rows.push(vec![name, reads.join(", "), cell.hex(), gives.unwrap_or_default()]);
    }
    rows.push(vec!["H".into(), tried.h_reads.join(", "), tried.h.hex(), String::new()]);
    Ok(columns(&rows))
}

/// A set of inputs: a mask as a number, or names with commas.
fn set(words: &Words, option: &str, names: &Names) -> Result<Option<u64>, Trouble> {
    let list = match words.value(option) {
        Some(list) => list,
        None => return Ok(None),
    };
    if let Ok(mask) = list.parse() {
        return Ok(Some(mask));
    }
    let mut mask = 0;
    for name in list.split(',').filter(|name| !name.is_empty()) {
        let j = names.position(name);
        mask |=
            1 << j.ok_or_else(|| Trouble::line(format!("{option}: no input is called {name}")))?;
    }
    Ok(Some(mask))
}

fn tried(gate: &Gate, split: Split, words: &Words) -> Result<Tried, Trouble> {
    let edition = words.number("--edition")?.unwrap_or(1);
    let k = words.number("--k")?.unwrap_or(if edition == 2 { 8 } else { 6 });
    let r: u64 = words.number("--r")?.unwrap_or(1);
    if r != 1 && edition != 1 {
        return Err(Trouble::line("--r is for the first edition"));
    }
    let (n, names) = (gate.n(), &gate.names);
    // H is never longer than the gate's own table.
    let mut room = vec![0; gate.table.bytes.len()];
    let tables = if r == 1 {
        editions::tried(edition, [n, k], split, &gate.table.bytes, &mut room).map(|d| vec![d])
    } else {
        let several = Several { r, split };
        let tables = try_several(n, k, several, &gate.table.bytes, &mut room);
        tables.map(|tables| tables.iter().take(r as usize).map(|d| vec![*d]).collect())
    };
    let table = Some(&gate.table);
    let look = Look { names: Some(names), table, shared: split.shared, ..Look::default() };
    let tables = tables.map_err(|refusal| look.at(refusal))?;
    let both = members(split.own | split.shared, gate.table.n);
    let first = tables.iter().map(|words| cell(&both, words)).collect();
    let kept = members(!split.own, gate.table.n);
    let mut h_reads: Vec<String> = kept.iter().map(|&j| names.of_signal(j)).collect();
    let outputs = (0..tables.len()).map(|at| match tables.len() {
        1 => "D".to_string(),
        _ => format!("D{at}"),
    });
    h_reads.extend(outputs);
    let h =
        Table { n: h_reads.len(), bytes: room[..pelzurivan::table_length(h_reads.len())].to_vec() };
    Ok(Tried { first, h, h_reads })
}

fn members(mask: u64, n: usize) -> Vec<usize> {
    (0..n).filter(|j| mask >> j & 1 == 1).collect()
}

/// A first cell out of the words of its table.
fn cell(reads: &[usize], words: &[u64]) -> Cell {
    let bit = |x: usize| words.get(x / 64).map_or(false, |word| word >> (x % 64) & 1 == 1);
    Cell {
        signal: 0,
        reads: reads.to_vec(),
        bits: (0..1 << reads.len()).map(bit).collect(),
        depth: 1,
    }
}
