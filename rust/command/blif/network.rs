//! The lines of a BLIF file with one output.

use crate::names::Names;
use crate::rows::{self, Row};
use pelzurivan::INPUTS;

/// A cell of the file: its rows say where it is 1, or where it is 0 if the value is false.
#[derive(Debug)]
pub struct Node {
    pub name: String,
    pub reads: Vec<String>,
    pub rows: Vec<Row>,
    pub value: bool,
}

#[derive(Debug, Default)]
pub struct Network {
    pub inputs: Vec<String>,
    pub output: String,
    pub nodes: Vec<Node>,
}

/// The most signals that a cell of the file may read: its table is written out.
const MOST_READS: usize = INPUTS;
/// The most cells that are read: more than any sheet or formula could hold.
const MOST_NODES: usize = 20_000;

/// The network that a text is; in words why it is none.
pub fn read(text: &str) -> Result<Network, String> {
    let mut network = Network::default();
    let mut outputs = Vec::new();
    let (mut named, mut ended) = (false, false);
    for (at, line) in lines(text) {
        let words: Vec<&str> = line.split_whitespace().collect();
        let model = words.first() == Some(&".model");
        if model && (named || ended) {
            return Err(format!(
                "line {at}: a second model: a network is one, without others in it"
            ));
        }
        named = named || model;
        ended = ended
            || !network.line(&words, &mut outputs).map_err(|why| format!("line {at}: {why}"))?;
    }
    match &outputs[..] {
        [one] => network.output = one.clone(),
        [] => return Err("no output: a gate has one".to_string()),
        _ => return Err(format!("{} outputs: a gate has one", outputs.len())),
    }
    network.lawful()?;
    network.without_wires()
}

/// The lines without remarks, those that end in a backslash with the next, each with its number.
fn lines(text: &str) -> Vec<(usize, String)> {
    let mut list: Vec<(usize, String)> = Vec::new();
    let mut goes_on = false;
    for (at, line) in text.lines().enumerate() {
        let line = line.split('#').next().unwrap_or_default().trim_end();
        let (line, next) = match line.strip_suffix('\\') {
            Some(line) => (line, true),
            None => (line, false),
        };
        match list.last_mut().filter(|_| goes_on) {
            Some((_, before)) => {
                before.push(' ');
                before.push_str(line);
            }
            None => list.push((at + 1, line.to_string())),
        }
        goes_on = next;
    }
    list
}

impl Network {
    /// Takes a line; whether the file goes on.
    fn line(&mut self, words: &[&str], outputs: &mut Vec<String>) -> Result<bool, String> {
        match words {
            // What yosys writes beside a cell about its origin says nothing of what it gives.
            [] | [".model" | ".attr" | ".cname" | ".param", ..] => {}
            [".end", ..] => return Ok(false),
            [".inputs", names @ ..] => self.inputs.extend(names.iter().map(|n| n.to_string())),
            [".outputs", names @ ..] => outputs.extend(names.iter().map(|n| n.to_string())),
            [".names", reads @ .., name] => self.node(reads, name)?,
            [".conn", read, name] => {
                self.node(&[read], name)?;
                self.row("1", "1")?
            }
            [".latch" | ".mlatch", ..] => return Err("a latch: a gate has no memory".to_string()),
            [kind @ (".subckt" | ".gate"), name, ..] => {
                return Err(format!("{kind} {name}: its rows aren't here: only .names are read"))
            }
            [other, ..] if other.starts_with('.') => {
                return Err(format!("{other}: only cells with rows (.names) are read"))
            }
            [value] => self.row("", value)?,
            [inputs, value] => self.row(inputs, value)?,
            _ => return Err("a row is two words".to_string()),
        }
        Ok(true)
    }

    fn node(&mut self, reads: &[&str], name: &str) -> Result<(), String> {
        if reads.len() > MOST_READS {
            return Err(format!("{name} reads {} signals, more than {MOST_READS}", reads.len()));
        }
        if self.nodes.len() == MOST_NODES {
            return Err(format!("more than {MOST_NODES} cells"));
        }
        let reads = reads.iter().map(|read| read.to_string()).collect();
        self.nodes.push(Node { name: name.to_string(), reads, rows: Vec::new(), value: true });
        Ok(())
    }

    /// A row belongs to the last cell, and ends in the same value as its other rows.
    fn row(&mut self, inputs: &str, value: &str) -> Result<(), String> {
        let node = self.nodes.last_mut().ok_or("a row before the first cell")?;
        let row = rows::row(inputs, value)?;
        if row.inputs.len() != node.reads.len() {
            let (given, name) = (row.inputs.len(), &node.name);
            return Err(format!("a row of {given} places: {name} reads {}", node.reads.len()));
        }
        if !node.rows.is_empty() && node.value != row.one {
            return Err(format!("{} has rows that end in 0 and in 1", node.name));
        }
        node.value = row.one;
        node.rows.push(row);
        Ok(())
    }

    /// One to sixteen inputs; no signal is given twice.
    fn lawful(&self) -> Result<(), String> {
        if self.inputs.is_empty() || self.inputs.len() > INPUTS {
            return Err(format!("{} inputs: a gate has 1 to {INPUTS}", self.inputs.len()));
        }
        let mut given: Vec<&String> = self.inputs.iter().collect();
        given.extend(self.nodes.iter().map(|node| &node.name));
        given.sort();
        match given.windows(2).find(|pair| pair[0] == pair[1]) {
            Some(pair) => Err(format!("{} is given twice", pair[0])),
            None => Ok(()),
        }
    }

    /// The inputs in the order of the names told, if they are the user's own.
    pub fn in_order_of(mut self, told: Option<&Names>) -> Result<Network, String> {
        if let Some(names) = told.filter(|names| names.own) {
            let (mut ours, mut theirs) = (self.inputs.clone(), names.inputs.clone());
            ours.sort();
            theirs.sort();
            if ours != theirs {
                let (ours, theirs) = (self.inputs.join(", "), names.inputs.join(", "));
                return Err(format!("its inputs are {ours}; the gate's are {theirs}"));
            }
            self.inputs = names.inputs.clone();
        }
        Ok(self)
    }
}

#[cfg(test)]
mod tests {
    use super::*;

    #[test]
    fn lines_go_on_after_a_backslash() {
        let text = ".model m # a remark\n.inputs a \\\n b\n.outputs f\n.names a b f\n11 1\n.end\n";
        let network = read(text).unwrap();
        assert_eq!((network.inputs.len(), network.nodes.len()), (2, 1));
        assert_eq!(network.nodes[0].rows.len(), 1);
    }

    #[test]
    fn files_that_are_no_network_of_one_output() {
        let start = ".inputs a b\n.outputs f\n";
        for rest in [
            "1 1",
            ".names a f\n11 1",
            ".names a f\n1 1\n0 0",
            ".names a f\n1 x",
            ".latch a f",
            ".names a a\n1 1",
            ".outputs g",
            ".names a f\n1 1 1",
            ".inputs b",
        ] {
            assert!(read(&format!("{start}{rest}")).is_err(), "{rest:?}");
        }
        assert!(read("").is_err() && read(".outputs f\n.names f\n1").is_err());
    }
}
