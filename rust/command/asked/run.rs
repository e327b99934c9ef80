//! gate run: a sheet at one assignment.

use super::Asked;
use crate::editions;
use crate::handed;
use crate::json::Json;
use crate::names::Names;
use crate::trouble::Trouble;
use crate::words::{Known, Words};
use pelzurivan::Refusal;

pub static ASKED: Asked = Asked {
    name: "run",
    help: include_str!("../help/run.txt"),
    known: Known { alone: &["--json"], valued: &["--at", "--edition", "--n", "--names"] },
    answer,
};

fn answer(words: &Words) -> Result<String, Trouble> {
    let [path] = words.exactly(["SHEET"])?;
    let handed = handed::sheet(path, words, None)?;
    let x = assignment(words, &handed.names)?;
    let ran = editions::ran(handed.edition.told, handed.n as u64, &handed.bytes, x);
    let bit = ran.map_err(|refusal| match refusal {
        Refusal::Assignment => beyond(refusal, x, &handed.names),
        _ => handed.look(None).at(refusal),
    })?;
    Ok(said(words, &handed.names, x, bit))
}

/// The bit at an assignment, for people or for programs.
pub fn said(words: &Words, names: &Names, x: u64, bit: bool) -> String {
    if words.has("--json") {
        let fields =
            vec![("number", 0usize.into()), ("x", x.into()), ("bit", u64::from(bit).into())];
        return format!("{}\n", Json::object(fields));
    }
    let bit = u8::from(bit);
    format!("{}: {} = {bit}\n", names.assignment(x), names.output)
}

pub fn beyond(refusal: Refusal, x: u64, names: &Names) -> Trouble {
    let n = names.count();
    Trouble::look_at(refusal, format!("{x}, where {n} inputs have assignments below {}", 1u64 << n))
}

/// The assignment that --at tells: a number, or a bit for each input.
pub fn assignment(words: &Words, names: &Names) -> Result<u64, Trouble> {
    let at = words.value("--at").ok_or_else(|| Trouble::line("at which assignment? --at"))?;
    if let Ok(x) = at.parse() {
        return Ok(x);
    }
    let mut bits: Vec<Option<u64>> = vec![None; names.count()];
    for pair in at.split([',', ' ']).filter(|pair| !pair.is_empty()) {
        let told = pair.split_once('=').and_then(|(name, bit)| {
            let bit = bit.parse().ok().filter(|bit| *bit <= 1)?;
            Some((names.position(name)?, bit))
        });
        let (j, bit) =
            told.ok_or_else(|| Trouble::line(format!("--at: {pair} gives no input a bit")))?;
        if bits[j].replace(bit).is_some() {
            return Err(Trouble::line(format!("--at: {} is given twice", names.inputs[j])));
        }
    }
    match bits.iter().position(Option::is_none) {
        Some(j) => Err(Trouble::line(format!("--at: no bit for {}", names.inputs[j]))),
        None => Ok(bits.iter().flatten().enumerate().map(|(j, bit)| bit << j).sum()),
    }
}
