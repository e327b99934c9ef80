//! A sheet as a Verilog module.

use super::signal_names;
use crate::sheets::Cell;
use crate::short::Formula;
use crate::shown::Shown;

pub fn write(shown: &Shown) -> String {
    let names: Vec<String> = signal_names(shown).iter().map(|name| identifier(name)).collect();
    let n = shown.sheet.n;
    let output = names.last().cloned().unwrap_or_default();
    let inputs = names[..n].join(", ");
    let mut text = format!("// {}\n", shown.summary());
    text.push_str(&format!("module top({inputs}, {output});\n  input {inputs};\n"));
    text.push_str(&format!("  output {output};\n"));
    let wires: Vec<&str> = names[n..].iter().rev().skip(1).rev().map(String::as_str).collect();
    if !wires.is_empty() {
        text.push_str(&format!("  wire {};\n", wires.join(", ")));
    }
    for (at, cell) in shown.sheet.cells.iter().enumerate() {
        let gives = match &shown.gives[at] {
            Some(formula) => expression(formula, cell, &names),
            None => sum(cell, &names),
        };
        text.push_str(&format!("  assign {} = {gives};\n", names[cell.signal]));
    }
    text.push_str("endmodule\n");
    text
}

/// A cell's formula as Verilog has it.
fn expression(formula: &Formula, cell: &Cell, names: &[String]) -> String {
    match formula {
        Formula::Constant(one) => format!("1'b{}", u8::from(*one)),
        Formula::Input(j, true) => names[cell.reads[*j]].clone(),
        Formula::Input(j, false) => format!("~{}", names[cell.reads[*j]]),
        Formula::Joined(by, parts) => {
            let part = |part: &Formula| {
                let text = expression(part, cell, names);
                if matches!(part, Formula::Joined(..)) {
                    format!("({text})")
                } else {
                    text
                }
            };
            parts.iter().map(part).collect::<Vec<_>>().join(&format!(" {by} "))
        }
    }
}

/// A cell as the sum of the assignments at which it is 1.
fn sum(cell: &Cell, names: &[String]) -> String {
    let term = |x: usize| {
        let factor = |j: usize| {
            let sign = if x >> j & 1 == 1 { "" } else { "~" };
            format!("{sign}{}", names[cell.reads[j]])
        };
        let factors: Vec<String> = (0..cell.reads.len()).map(factor).collect();
        format!("({})", factors.join(" & "))
    };
    let terms: Vec<String> = (0..cell.bits.len()).filter(|&x| cell.bits[x]).map(term).collect();
    if terms.is_empty() {
        "1'b0".to_string()
    } else {
        terms.join(" | ")
    }
}

const KEPT: &[&str] = &[
    "always",
    "and",
    "assign",
    "begin",
    "buf",
    "case",
    "default",
    "edge",
    "else",
    "end",
    "endcase",
    "endmodule",
    "event",
    "for",
    "force",
    "function",
    "if",
    "initial",
    "inout",
    "input",
    "integer",
    "join",
    "module",
    "nand",
    "nor",
    "not",
    "or",
    "output",
    "parameter",
    "real",
    "reg",
    "release",
    "repeat",
    "signed",
    "table",
    "task",
    "time",
    "top",
    "tri",
    "wait",
    "wand",
    "while",
    "wire",
    "wor",
    "xnor",
    "xor",
];

/// A name as it is, or escaped where it is no plain identifier: a backslash before it, a space after.
fn identifier(name: &str) -> String {
    let plain = |c: char| c.is_ascii_alphanumeric() || c == '_';
    let starts = name.starts_with(|c: char| c.is_ascii_alphabetic() || c == '_');
    if starts && name.chars().all(plain) && !KEPT.contains(&name) {
        name.to_string()
    } else {
        format!("\\{name} ")
    }
}
