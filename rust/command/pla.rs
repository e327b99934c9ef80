//! A list of rows, as in PLA files with one output: rows that end in 1 say where the gate is 1, any
//! other row says nothing.

use crate::gates::Gate;
use crate::names::Names;
use crate::rows::{self, Row};
use pelzurivan::INPUTS;

#[derive(Default)]
struct Pla {
    n: Option<usize>,
    names: Option<Vec<String>>,
    output: Option<String>,
    rows: Vec<Row>,
}

/// The gate that a text is; in words why it is none.
pub fn read(text: &str) -> Result<Gate, String> {
    let mut pla = Pla::default();
    for (at, line) in text.lines().enumerate() {
        let line = line.split('#').next().unwrap_or_default();
        let words: Vec<&str> = line.split([' ', '\t', '|']).filter(|w| !w.is_empty()).collect();
        let more = pla.line(&words).map_err(|why| format!("line {}: {why}", at + 1))?;
        if !more {
            break;
        }
    }
    let n = pla.n.ok_or("no rows")?;
    let names = match pla.names {
        Some(inputs) => Names::of(inputs, pla.output.unwrap_or_else(|| "gate".into()))?,
        None => Names::letters(n),
    };
    if names.count() != n {
        return Err(format!("{} names for {n} inputs", names.count()));
    }
    Ok(Gate::new(rows::table_of(n, &pla.rows, true), names, "the rows of a file"))
}

impl Pla {
    /// Takes a line; whether the file goes on.
    fn line(&mut self, words: &[&str]) -> Result<bool, String> {
        match words {
            [] => {}
            [".e" | ".end", ..] => return Ok(false),
            [".i", n] => self.inputs(n.parse().map_err(|_| format!(".i {n} is no number"))?)?,
            [".o", "1"] | [".p", _] | [".type", "f" | "fd"] => {}
            [".o", _] => return Err("a gate has one output".to_string()),
            [".ilb", names @ ..] => self.names = Some(owned(names)),
            [".ob", name] => self.output = Some(name.to_string()),
            [other, ..] if other.starts_with('.') => return Err(format!("{other} isn't read")),
            [inputs, "-" | "~"] => self.inputs(inputs.chars().count())?,
            [inputs, output] => {
                let row = rows::row(inputs, output)?;
                self.inputs(row.inputs.len())?;
                self.rows.extend(Some(row).filter(|row| row.one));
            }
            _ => return Err("a row is two words".to_string()),
        }
        Ok(true)
    }

    fn inputs(&mut self, n: usize) -> Result<(), String> {
        if n == 0 || n > INPUTS {
            return Err(format!("{n} inputs: a gate has 1 to {INPUTS}"));
        }
        match self.n.replace(n) {
            Some(before) if before != n => Err(format!("{n} inputs, and {before} before")),
            _ => Ok(()),
        }
    }
}

fn owned(words: &[&str]) -> Vec<String> {
    words.iter().map(|word| word.to_string()).collect()
}

#[cfg(test)]
mod tests {
    use super::*;

    #[test]
    fn with_and_without_a_head() {
        let bare = read("1-0 1\n# a remark\n-11 1\n000 0\n").unwrap();
        assert_eq!((bare.table.n, bare.table.bytes), (3, vec![0xCA]));
        let pla = read(".i 2\n.o 1\n.ilb key permit\n.ob open\n11 1\n.e\nleft alone").unwrap();
        assert_eq!(
            (pla.table.bytes, pla.names.inputs),
            (vec![8], vec!["key".into(), "permit".into()])
        );
    }

    #[test]
    fn files_that_are_no_list_of_rows() {
        let long = format!("{} 1", "1".repeat(17));
        for text in ["", "hello", "1-0 1\n11 1", ".o 2", ".i x", &long, "1-0 1 1", ".mv 3"] {
            assert!(read(text).is_err(), "{text:?}");
        }
    }
}
