//! A sheet as a graph for Graphviz. No name holds a quote or a backslash.

use crate::listed::Listed;

pub fn write(shown: &Listed) -> String {
    let mut text =
        String::from("digraph gate {\n  rankdir=LR;\n  node [fontname=\"sans-serif\"];\n");
    for (j, name) in shown.names.inputs.iter().enumerate() {
        text.push_str(&format!("  s{j} [shape=plaintext, label=\"{name}\"];\n"));
    }
    for (at, cell) in shown.sheet.cells.iter().enumerate() {
        let mut label = format!("[{}]\\n{}\\n{}", cell.signal, cell.hex(), shown.gives(at));
        if let Some(time) = shown.times.cells.get(at) {
            label = format!("{label}\\n{time}");
        }
        text.push_str(&format!("  s{} [shape=box, label=\"{label}\"];\n", cell.signal));
    }
    text.push_str(&format!("  out [shape=plaintext, label=\"{}\"];\n", shown.names.output));
    for cell in &shown.sheet.cells {
        for read in &cell.reads {
            text.push_str(&format!("  s{read} -> s{};\n", cell.signal));
        }
    }
    if let Some(last) = shown.sheet.cells.last() {
        text.push_str(&format!("  s{} -> out;\n", last.signal));
    }
    text.push_str("}\n");
    text
}
