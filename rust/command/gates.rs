//! A gate as a person hands it over: a formula, a table in hexadecimal, or a file.

use crate::blif;
use crate::files;
use crate::names::Names;
use crate::pla;
use crate::tables::{self, Table};
use crate::trouble::{one_line, Caret, Refused, Trouble};
use crate::words::Words;
use pelzurivan::{read_formula, Refusal, INPUTS};

/// A gate: its table, what its signals are called, and how it was said.
pub struct Gate {
    pub table: Table,
    pub names: Names,
    pub said: String,
    /// The word or words of the command line that bring it again.
    pub again: String,
}

impl Gate {
    pub fn new(table: Table, names: Names, said: &str) -> Gate {
        Gate { table, names, said: said.to_string(), again: String::new() }
    }

    pub fn n(&self) -> u64 {
        self.table.n as u64
    }
}

/// The gate that a word is. No formula holds a `.`, a `/`, a `:` or an `x`.
pub fn gate(word: &str, words: &Words) -> Result<Gate, Trouble> {
    let names = words.value("--names").map(Names::given).transpose()?;
    let told: Option<usize> = words.number("--n")?.or(names.as_ref().map(Names::count));
    gate_of(word, words, names, told)
}

/// A gate of three inputs, whichever of them a formula names.
pub fn three(word: &str, words: &Words) -> Result<Gate, Trouble> {
    gate_of(word, words, None, Some(3))
}

fn gate_of(
    word: &str,
    words: &Words,
    names: Option<Names>,
    told: Option<usize>,
) -> Result<Gate, Trouble> {
    let mut gate = if let Some(digits) = word.strip_prefix("0x") {
        of_table(tables::read_hex(digits, told)?)
    } else if let Some(digits) = word.strip_prefix("bytes:") {
        of_table(tables::read_bytes(digits, told)?)
    } else if is_path(word) {
        of_file(word)?
    } else {
        of_formula(word, told)?
    };
    if let Some(names) = names {
        gate.names = Names { output: gate.names.output.clone(), ..names };
    }
    let (count, n) = (gate.names.count(), gate.table.n);
    if (1..=INPUTS).contains(&n) && count != n {
        return Err(Trouble::line(format!("{count} names for {n} inputs")));
    }
    gate.again = again(word, words);
    Ok(gate)
}

pub fn is_path(word: &str) -> bool {
    word == "-" || word.contains('.') || word.contains('/')
}

fn of_table(table: Table) -> Gate {
    let (names, said) = (Names::letters(table.n), format!("0x{}", table.hex()));
    Gate::new(table, names, &said)
}

fn of_file(path: &str) -> Result<Gate, Trouble> {
    let text = files::text(path)?;
    let inside = |why: String| Trouble::file(format!("{path}: {why}"));
    if path.ends_with(".blif") {
        return blif::gate(&text, path);
    }
    pla::read(&text).map_err(inside)
}

/// A formula: white space is taken out, the rest goes to the proved reader. Its inputs go up to the
/// highest letter unless n is told.
fn of_formula(text: &str, told: Option<usize>) -> Result<Gate, Trouble> {
    let bytes: Vec<u8> = text.bytes().filter(|c| !c.is_ascii_whitespace()).collect();
    let highest = bytes.iter().filter(|c| (b'a'..=b'p').contains(c)).max();
    let n = told.unwrap_or_else(|| highest.map_or(1, |c| usize::from(c - b'a') + 1));
    let mut table = Table::zeros(n);
    match read_formula(n as u64, &bytes, &mut table.bytes) {
        Ok(()) => Ok(Gate::new(table, Names::letters(n), text.trim())),
        Err(refusal @ Refusal::Formula { place }) => Err(no_formula(refusal, text, place as usize)),
        Err(refusal) => Err(refusal.into()),
    }
}

/// The place in the text without white space, shown in the text as it was given.
fn no_formula(refusal: Refusal, text: &str, place: usize) -> Trouble {
    let kept: Vec<usize> =
        (0..text.len()).filter(|&at| !text.as_bytes()[at].is_ascii_whitespace()).collect();
    let at = kept.get(place).copied().unwrap_or(text.len());
    let column = text.char_indices().filter(|(start, _)| *start < at).count();
    let look_at = match text[..].chars().nth(column) {
        Some(c) => format!("{c:?} at place {place} of the text"),
        None => format!("the text ends at place {place}"),
    };
    let caret = Some(Caret { text: one_line(text), column });
    Trouble::Refused(Refused { refusal, look_at, caret })
}

/// How the same gate is said again on a command line.
fn again(word: &str, words: &Words) -> String {
    let mut line = format!("'{}'", word.replace('\'', "'\\''"));
    for name in ["--n", "--names"] {
        if let Some(value) = words.value(name) {
            line = format!("{line} {name} '{value}'");
        }
    }
    line
}
