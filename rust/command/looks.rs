//! What a refusal tells a person to look at, in the user's names.

use crate::files::MOST_BYTES;
use crate::names::Names;
use crate::tables::Table;
use crate::trouble::Trouble;
use pelzurivan::Refusal;

/// What is at hand when a call refuses.
#[derive(Default)]
pub struct Look<'a> {
    pub names: Option<&'a Names>,
    /// Which node of a file each record is.
    pub nodes: &'a [String],
    pub table: Option<&'a Table>,
    /// The sheet's length, and that of a record.
    pub sheet: Option<(usize, usize)>,
    /// The mask of the shared set of a named split.
    pub shared: u64,
}

impl Look<'_> {
    pub fn at(&self, refusal: Refusal) -> Trouble {
        let look_at = match refusal {
            Refusal::BadRecord { index } | Refusal::Unread { index } => self.record(index),
            Refusal::Differs { assignment } => self.differs(assignment),
            Refusal::SheetLength => self.length(),
            Refusal::TableLength => self.table_length(),
            Refusal::Unsplit { b, columns } if columns > 0 => self.columns(b, columns),
            _ => String::new(),
        };
        Trouble::look_at(refusal, look_at)
    }

    fn record(&self, index: u64) -> String {
        let at = index as usize;
        let signal = match self.names {
            Some(names) => format!(", which gives signal {}", names.count() + at),
            None => String::new(),
        };
        match self.nodes.get(at) {
            Some(node) => format!("record {index} of 0 and up{signal}, {node} of the file"),
            None => format!("record {index} of 0 and up{signal}"),
        }
    }

    fn differs(&self, x: u64) -> String {
        let bit = self.table.and_then(|table| {
            let byte = table.bytes.get(x as usize / 8)?;
            Some(byte >> (x % 8) & 1)
        });
        let bits = match bit {
            Some(bit) => format!(", where the gate gives {bit} and the sheet {}", 1 - bit),
            None => String::new(),
        };
        match self.names {
            Some(names) => format!("first at {} (assignment {x}){bits}", names.assignment(x)),
            None => format!("first at assignment {x}{bits}"),
        }
    }

    fn length(&self) -> String {
        match self.sheet {
            Some((0, _)) => "it is empty".to_string(),
            // Of a network with many cells, or of a long file, only the first bytes are at hand.
            Some(_) if !self.nodes.is_empty() => format!("it has {} records", self.nodes.len()),
            Some((length, _)) if length > MOST_BYTES => "it has over 4,096 bytes".to_string(),
            Some((length, record)) if length % record == 0 => {
                format!("it has {} records", length / record)
            }
            Some((length, record)) => format!("it has {length} bytes, a record {record}"),
            None => String::new(),
        }
    }

    fn table_length(&self) -> String {
        match self.table {
            Some(table) => format!("{} bytes for {} inputs", table.bytes.len(), table.n),
            None => String::new(),
        }
    }

    /// b numbers the shared inputs in increasing position, lowest as bit 0.
    fn columns(&self, b: u64, columns: u64) -> String {
        let names = match self.names {
            Some(names) => names,
            None => return format!("{columns} columns at b = {b}"),
        };
        let members = (0..names.count()).filter(|j| self.shared >> j & 1 == 1);
        let bits = members.enumerate();
        let bits = bits.map(|(at, j)| format!("{}={}", names.inputs[j], b >> at & 1));
        let bits: Vec<String> = bits.collect();
        let place = if bits.is_empty() { "nothing shared".into() } else { bits.join(" ") };
        format!("{columns} different columns at {place}")
    }
}
