//! Sheets as people hand them over: records in a file, or a network in a BLIF file.

use crate::blif;
use crate::editions;
use crate::files;
use crate::gates::Gate;
use crate::looks::Look;
use crate::names::Names;
use crate::sheets::{Edition, Sheet};
use crate::tables::Table;
use crate::trouble::Trouble;
use crate::words::Words;
use pelzurivan::INPUTS;

pub struct Handed {
    pub path: String,
    pub n: usize,
    pub edition: Edition,
    pub bytes: Vec<u8>,
    pub names: Names,
    pub nodes: Vec<String>,
}

/// The sheet in a file. How many inputs it has is told by the gate, by --n or by --names; a network
/// says so itself.
pub fn sheet(path: &str, words: &Words, gate: Option<&Gate>) -> Result<Handed, Trouble> {
    let edition = Edition::of(words.number("--edition")?.unwrap_or(1));
    let names = match gate {
        Some(gate) => Some(gate.names.clone()),
        None => words.value("--names").map(Names::given).transpose()?,
    };
    let path = path.to_string();
    if path.ends_with(".blif") {
        let text = files::text(&path)?;
        let brought = blif::sheet(&text, &path, edition.told, names.as_ref())?;
        let (bytes, nodes, names) = (brought.bytes, brought.nodes, brought.names);
        let n = names.count();
        return match gate {
            Some(gate) if gate.table.n != n => {
                let theirs = gate.table.n;
                Err(Trouble::file(format!("{path}: {n} inputs; the gate has {theirs}")))
            }
            _ => Ok(Handed { path, n, edition, bytes, names, nodes }),
        };
    }
    let told = gate.map(|gate| gate.table.n).or(words.number("--n")?);
    let n = told.or(names.as_ref().map(Names::count)).ok_or_else(|| {
        Trouble::line("how many inputs has the gate? --n N, or --names with a name for each")
    })?;
    let names = names.unwrap_or_else(|| Names::letters(n));
    if (1..=INPUTS).contains(&n) && names.count() != n {
        return Err(Trouble::line(format!("{} names for {n} inputs", names.count())));
    }
    let bytes = files::bytes(&path)?;
    Ok(Handed { path, n, edition, bytes, names, nodes: Vec::new() })
}

impl Handed {
    pub fn look<'a>(&'a self, table: Option<&'a Table>) -> Look<'a> {
        let sheet = Some((self.bytes.len(), self.edition.record));
        Look { names: Some(&self.names), nodes: &self.nodes, table, sheet, ..Look::default() }
    }

    /// The table that the library rebuilds.
    pub fn rebuilt(&self) -> Result<Table, Trouble> {
        let mut table = Table::zeros(self.n);
        editions::rebuilt(self.edition.told, self.n as u64, &self.bytes, &mut table.bytes)
            .map_err(|refusal| self.look(None).at(refusal))?;
        Ok(table)
    }

    /// Whether the library accepts the sheet for a table.
    pub fn checked(&self, table: &Table) -> Result<(), Trouble> {
        editions::checked(self.edition.told, self.n as u64, &table.bytes, &self.bytes)
            .map_err(|refusal| self.look(Some(table)).at(refusal))
    }

    /// The cells, of a sheet that the library took.
    pub fn listed(&self) -> Sheet {
        Sheet::new(self.n, self.edition, &self.bytes)
    }

    /// How the same sheet is said again on a command line, with its inputs if no gate tells them.
    pub fn again(&self, gate: Option<&Gate>) -> String {
        let mut line = format!("'{}'", self.path.replace('\'', "'\\''"));
        if self.edition.told != 1 {
            line = format!("{line} --edition {}", self.edition.told);
        }
        match gate {
            Some(gate) => format!("{line} --gate {}", gate.again),
            None if !self.nodes.is_empty() => line,
            None if self.names.own => format!("{line} --names '{}'", self.names.inputs.join(",")),
            None => format!("{line} --n {}", self.n),
        }
    }
}
