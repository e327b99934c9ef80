//! A sheet for other tools, and for the inspector.

pub mod blif;
pub mod dot;
pub mod report;
pub mod verilog;

use crate::shown::Shown;

/// A name for each signal, no two alike: the inputs' own, n and the number for cells, and the
/// output's for the last.
pub fn signal_names(shown: &Shown) -> Vec<String> {
    let mut names = shown.names.inputs.clone();
    let last = shown.sheet.count().saturating_sub(1);
    let output = shown.names.fresh(&shown.names.output);
    for (at, cell) in shown.sheet.cells.iter().enumerate() {
        let mut name = shown.names.fresh(&format!("n{}", cell.signal));
        if name == output {
            name = shown.names.fresh(&format!("{name}_"));
        }
        names.push(if at == last { output.clone() } else { name });
    }
    names
}

/// Text as it may stand in SVG and HTML.
pub fn escaped(text: &str) -> String {
    let mut out = String::new();
    for c in text.chars() {
        match c {
            '&' => out.push_str("&amp;"),
            '<' => out.push_str("&lt;"),
            '>' => out.push_str("&gt;"),
            '"' => out.push_str("&quot;"),
            c if c.is_control() => out.push('?'),
            c => out.push(c),
        }
    }
    out
}
